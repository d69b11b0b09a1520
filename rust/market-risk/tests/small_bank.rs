//! The small bank's call: books worked by hand, what 20 refuses, and where it comes.

use market_risk::{joined, raw, small_bank, Refusal, SmallBank};

/// A row of kind 0 with one signed amount: long above zero, short below.
fn row(group: u8, days: u16, net: i64) -> [u8; 16] {
    let mut row = [0; 16];
    row[0] = group;
    row[2..4].copy_from_slice(&days.to_le_bytes());
    let at = if net > 0 { 8 } else { 12 };
    row[at..at + 4].copy_from_slice(&(net.unsigned_abs() as u32).to_le_bytes());
    row
}

/// A book of four bodies.
fn book(bodies: [&[[u8; 16]]; 4]) -> Vec<u8> {
    let head = bodies.map(|body| (body.len() as u16).to_le_bytes());
    [head.concat(), bodies.concat().concat()].concat()
}

/// A book of foreign exchange and commodities.
fn small(exchange: &[[u8; 16]], commodities: &[[u8; 16]]) -> Vec<u8> {
    book([&[], &[], exchange, commodities])
}

/// Exchange and commodity, the total being their sum.
fn figures(book: &[u8]) -> (u64, u64) {
    let SmallBank {
        exchange,
        commodity,
        total,
        ..
    } = small_bank(book).unwrap();
    assert_eq!(total, exchange + commodity);
    (exchange, commodity)
}

/// The refusal, over marks in every entry: the figures are zero.
fn refusal(book: &[u8]) -> [u64; 3] {
    let mut out = [u64::MAX; 6];
    raw::small_bank(book, &mut out);
    assert_eq!(out[3..], [0; 3]);
    [out[0], out[1], out[2]]
}

/// E6's currencies and E5's commodity: net 200 short and gross 3,000, which cost
/// 200 × 150,000 + 3,000 × 30,000 mils; a second one is long 7 and short 7, 14 × 30,000.
#[test]
fn worked_by_hand() {
    let nets = [(1, 50), (2, 100), (3, 150), (4, -20), (5, -180), (0, -35)];
    let exchange = nets.map(|(group, net)| row(group, 0, net));
    let rows = [(150, 800), (150, -1_000), (600, 600), (1_100, -600)];
    let e5 = rows.map(|(days, net)| row(5, days, net));
    assert_eq!(figures(&small(&exchange, &[])), (26_800_000, 0));
    assert_eq!(figures(&small(&[], &e5)), (0, 120_000_000));
    let flat = [row(31, 0, 7), row(31, 36_000, -7)];
    let both = small(&exchange, &[&e5[..], &flat].concat());
    assert_eq!(figures(&both), (26_800_000, 120_420_000));
    assert_eq!(figures(&small(&[], &[])), (0, 0));
}

/// Catches days that enter a sum, one net over all commodities, and a class read for the other.
#[test]
fn days_do_not_enter_and_commodities_are_apart() {
    for days in [0, 30, 31, 1_080, 1_081, 36_000] {
        let same = small(&[], &[row(3, days, 10), row(3, 90, -4)]);
        assert_eq!(figures(&same), (0, 6 * 150_000 + 14 * 30_000), "{days}");
        let apart = small(&[], &[row(3, days, 10), row(4, days, -4)]);
        assert_eq!(figures(&apart), (0, 14 * 180_000), "{days}");
    }
    for group in 0..32 {
        let one = row(group, 0, -1);
        assert_eq!(figures(&small(&[one], &[])), (80_000, 0), "{group}");
        assert_eq!(figures(&small(&[], &[one])), (0, 180_000), "{group}");
    }
}

/// 4,000 rows of the greatest amount: 4 × 10^12 units at 18%, and at 8%.
#[test]
fn the_greatest_figures_do_not_wrap() {
    let rows = vec![row(9, 0, 1_000_000_000); 4_000];
    let commodity = 4_000_000_000_000 * 180_000;
    assert_eq!(figures(&small(&[], &rows)), (0, commodity));
    let exchange = 4_000_000_000_000 * 80_000;
    assert_eq!(figures(&small(&rows, &[])), (exchange, 0));
}

/// A's net of 60 and B's of -40 are 20 joined; the gross of 100 stays. Exchange: 10 long and
/// 4 long in another currency stay apart.
#[test]
fn joined_books_cost_at_most_the_two() {
    let a = small(&[row(1, 0, 10)], &[row(2, 0, 60)]);
    let b = small(&[row(2, 0, 4)], &[row(2, 720, -40)]);
    assert_eq!(figures(&a), (800_000, 10_800_000));
    assert_eq!(figures(&b), (320_000, 7_200_000));
    let both = joined(&a, &b).unwrap();
    assert_eq!(figures(&both), (1_120_000, 6_000_000));
}

/// One row of the class, and 256 of them: a count whose low byte is zero.
#[test]
fn twenty_is_an_interest_or_an_equity_row() {
    let bond = [7, 1, 60, 0, 0x20, 3, 0, 0, 10, 0, 0, 0, 0, 0, 0, 0];
    let share = [3, 1, 0, 0, 0, 0, 0, 0, 10, 0, 0, 0, 0, 0, 0, 0];
    let rest = [row(1, 0, 5)];
    for count in [1, 256] {
        let (bonds, shares) = (vec![bond; count], vec![share; count]);
        assert_eq!(refusal(&book([&bonds, &[], &rest, &rest])), [20, 0, 0]);
        assert_eq!(refusal(&book([&[], &shares, &rest, &rest])), [20, 0, 0]);
        assert_eq!(refusal(&book([&bonds, &shares, &[], &[]])), [20, 0, 0]);
    }
}

/// 20 comes after 1, 2 and 3.
#[test]
fn twenty_comes_after_the_contents() {
    for length in 0..8 {
        assert_eq!(refusal(&[1, 0, 1, 0, 0, 0, 0, 0][..length]), [1, 0, 0]);
    }
    // 4,001 rows: all of interest, all of equity, and one of interest beside 4,000.
    let counts = [[4_001, 0, 0, 0], [0, 4_001, 0, 0], [1, 0, 0, 4_000]];
    for counts in counts.map(|counts| counts.map(u16::to_le_bytes).concat()) {
        assert_eq!(refusal(&counts), [2, 0, 0]);
    }
    let whole = book([&[row(7, 0, 1)], &[row(7, 0, 1)], &[], &[]]);
    for length in 8..whole.len() {
        assert_eq!(refusal(&whole[..length]), [3, 0, 0], "{length}");
    }
    assert_eq!(refusal(&[&whole[..], &[0]].concat()), [3, 0, 0]);
    assert_eq!(refusal(&whole), [20, 0, 0]);
}

/// 20 comes before the rows: in every class, the first and the last row is bad.
#[test]
fn twenty_comes_before_the_rows() {
    let (good, bad) = (row(1, 0, 5), row(32, 0, 5));
    for rows in [[bad, good], [good, bad]] {
        for first in [0, 1] {
            for place in 0..4 {
                let mut bodies: [&[[u8; 16]]; 4] = [&[]; 4];
                bodies[first] = &[[0; 16]];
                bodies[place] = &rows;
                assert_eq!(refusal(&book(bodies)), [20, 0, 0], "{first} {place}");
            }
        }
    }
}

/// Each number of a row, in either class, behind a good row; days beyond their range are
/// refused though no sum takes them.
#[test]
fn rows_are_refused_as_in_check() {
    let good = row(1, 0, 5);
    let with = |place: usize, value| {
        let mut bad = good;
        bad[place] = value;
        bad
    };
    let over = row(1, 0, 1_000_000_001);
    let bad = [with(0, 32), with(1, 1), with(4, 1), with(12, 1), over];
    for (bad, number) in bad.into_iter().zip([4, 5, 7, 8, 9]) {
        assert_eq!(refusal(&small(&[good, bad], &[bad])), [number, 1, 0]);
        assert_eq!(refusal(&small(&[good], &[good, bad])), [number, 2, 0]);
    }
    assert_eq!(refusal(&small(&[good, row(1, 1, 5)], &[])), [6, 1, 0]);
    assert_eq!(refusal(&small(&[], &[good, row(1, 36_001, 5)])), [6, 1, 0]);
    // Kind 4 belongs to interest alone, and so does 15.
    assert_eq!(refusal(&small(&[], &[with(1, 4)])), [5, 0, 0]);
}

/// Catches words of another number, and a row told of a whole book.
#[test]
fn twenty_is_told_in_words() {
    let refusal = small_bank(&book([&[row(7, 0, 1)], &[], &[], &[]])).unwrap_err();
    let expected = Refusal {
        number: 20,
        row: 0,
        book: 0,
    };
    assert_eq!(refusal, expected);
    assert!(!refusal.names_row());
    assert_eq!(
        refusal.to_string(),
        "refused 20: interest or equity rows in a small bank's book"
    );
}
