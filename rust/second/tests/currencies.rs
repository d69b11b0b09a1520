//! The two interest charges of each currency (document 02, P6): each is that of its
//! interest rows alone.

mod common;
use common::*;
use second::{join, zones_used, Report, GROUPS};

/// A list that is zero but in these groups.
fn list(figures: &[(usize, u64)]) -> [u64; GROUPS] {
    let mut list = [0; GROUPS];
    figures
        .iter()
        .for_each(|(group, figure)| list[*group] = *figure);
    list
}

/// E3 of document 01, in a currency: 735,000, and nothing specific.
fn e3(group: u8) -> [Bytes; 3] {
    [(270, 75), (900, -30), (6000, 10)].map(|(days, net)| row(group, 1, days, 800, net))
}

/// Two rows at 60 days. Qualifying 10 at 0.25% and other 4 at 8%: 25,000 + 320,000. Of the
/// weighted 200 and 80 a match of 80 at 10% and the rest of 120: 800 + 12,000.
fn two_kinds(group: u8) -> [Bytes; 2] {
    [row(group, 2, 60, 800, 10), row(group, 3, 60, 800, -4)]
}

#[test]
fn e2_is_of_one_currency() {
    let report = charge(&interest(&[
        row(7, 2, 2880, 800, 13_330),
        bond(60, 75_000),
        bond(270, 150_000),
        bond(2880, -150_000),
        bond(180, -50_000),
        bond(1260, 50_000),
    ]));
    assert_eq!(report.specifics, list(&[(7, 213_280_000)]));
    assert_eq!(report.generals, list(&[(7, 4_580_112_500)]));
}

#[test]
fn e3_in_each_currency_by_itself() {
    for group in 0..32 {
        let report = charge(&interest(&e3(group)));
        assert_eq!(report.specifics, [0; GROUPS]);
        assert_eq!(report.generals, list(&[(group.into(), 735_000)]));
    }
}

#[test]
fn two_currencies_with_their_rows_mixed() {
    let ([a, b, c], [d, e]) = (e3(7), two_kinds(8));
    let report = charge(&interest(&[a, d, b, e, c]));
    assert_eq!(report.specifics, list(&[(8, 345_000)]));
    assert_eq!(report.generals, list(&[(7, 735_000), (8, 12_800)]));
    assert_eq!(
        (report.interest_specific, report.interest_general),
        (345_000, 747_800)
    );
}

/// Catches a list that begins at 1, or ends at 30.
#[test]
fn the_first_and_the_last_currency() {
    let report = charge(&interest(&[two_kinds(0), two_kinds(31)].concat()));
    assert_eq!(report.specifics, list(&[(0, 345_000), (31, 345_000)]));
    assert_eq!(report.generals, list(&[(0, 12_800), (31, 12_800)]));
}

/// Catches a currency that is passed over because nothing of it is weighted.
#[test]
fn a_currency_at_weight_0_has_its_specific_charge() {
    for days in [0, 30] {
        let rows = [row(3, 3, days, 300, -5), row(4, 1, days, 300, 5)];
        let report = charge(&interest(&rows));
        assert_eq!(report.specifics, list(&[(3, 5 * 800 * 100)]));
        assert_eq!(report.generals, [0; GROUPS]);
    }
}

/// Catches one ladder over all currencies: longs of one do not offset another's shorts.
#[test]
fn currencies_do_not_offset_each_other() {
    let report = charge(&interest(&[
        row(1, 1, 60, 800, 10),
        row(2, 1, 60, 800, -10),
    ]));
    assert_eq!(report.generals, list(&[(1, 20_000), (2, 20_000)]));
}

/// Catches equity's specific charge in the list, and any other class in it.
#[test]
fn other_classes_with_the_same_group_are_not_in_the_lists() {
    let own = two_kinds(5);
    let alone = charge(&interest(&own));
    for group in [5, 6] {
        let shares = [row(group, 1, 0, 0, 100), row(group, 3, 0, 0, -40)];
        let exchanged = [row(group, 0, 0, 0, 30)];
        let stock = [row(group, 0, 60, 0, 20)];
        for book in [
            book([&own, &shares, &[], &[]]),
            book([&own, &[], &exchanged, &[]]),
            book([&own, &[], &[], &stock]),
            book([&own, &shares, &exchanged, &stock]),
        ] {
            let report = charge(&book);
            assert_eq!(report.specifics, alone.specifics);
            assert_eq!(report.generals, alone.generals);
            assert!(report.total > alone.total);
        }
        let without = charge(&book([&[], &shares, &exchanged, &stock]));
        assert_eq!(
            (without.specifics, without.generals),
            ([0; GROUPS], [0; GROUPS])
        );
    }
}

/// Rows of all currencies, kinds and bands on both sides.
fn many() -> Vec<Bytes> {
    let row = |number: u16| {
        let net = i64::from(number * 37 % 101 + 1);
        row(
            (number * 7 % 32) as u8,
            (number % 3 + 1) as u8,
            number * 131 % 9_001,
            number * 53 % 601,
            if number % 5 < 3 { net } else { -net },
        )
    };
    (0..400).map(row).collect()
}

#[test]
fn each_list_sums_to_the_figure_that_it_splits() {
    let report = charge(&interest(&many()));
    assert!(report.specifics.iter().all(|figure| *figure > 0));
    assert!(report.generals.iter().all(|figure| *figure > 0));
    assert_eq!(
        report.specifics.iter().sum::<u64>(),
        report.interest_specific
    );
    assert_eq!(report.generals.iter().sum::<u64>(), report.interest_general);
}

/// The request's own words: a book of one currency's rows costs what its entries say.
#[test]
fn an_entry_is_the_charge_of_a_book_of_that_currency() {
    let rows = many();
    let whole = charge(&interest(&rows));
    for group in 0..GROUPS {
        let own = |row: &&Bytes| usize::from(row[0]) == group;
        let alone: Vec<Bytes> = rows.iter().filter(own).copied().collect();
        let alone = charge(&interest(&alone));
        let costs = (alone.interest_specific, alone.interest_general);
        assert_eq!((whole.specifics[group], whole.generals[group]), costs);
    }
}

#[test]
fn a_refused_book_has_no_figure_of_any_currency() {
    let mut rows = many();
    rows.push(row(32, 1, 0, 0, 1));
    let late = charge(&interest(&rows));
    assert_eq!((late.refusal.number, late.refusal.row), (4, 400));
    let zero = Report {
        refusal: late.refusal,
        ..Report::default()
    };
    assert_eq!(late, zero);
    assert_eq!(late.entries()[3..], [0; 72]);
}

/// The specific charges come after the rows taken, and the general ones after them.
#[test]
fn the_places_of_the_entries() {
    for group in 0..GROUPS {
        let rows = two_kinds(group as u8);
        let mut by_hand = [0; 75];
        by_hand[3..5].copy_from_slice(&[345_000, 12_800]);
        by_hand[9..11].copy_from_slice(&[357_800, 2]);
        by_hand[11 + group] = 345_000;
        by_hand[43 + group] = 12_800;
        assert_eq!(charge(&interest(&rows)).entries(), by_hand);
    }
}

/// E4 in currency 7, which uses three zones when joined and costs more; currency 8 uses two
/// and costs less: 100% of 5,250 twice before, 40% of their match after.
#[test]
fn a_currency_costs_no_more_joined_whatever_the_others_use() {
    let eight = |days, net| row(8, 3, days, 800, net);
    let a = interest(&[bond(270, 75), bond(900, -30), eight(270, 75)]);
    let b = interest(&[eight(900, -30), bond(900, 30), bond(6000, -10)]);
    let mut joined = vec![0; a.len() + b.len() - 8];
    assert!(join(&a, &b, &mut joined).refusal.accepted());
    assert_eq!(zones_used(&joined, 7), [true; 3]);
    assert_eq!(zones_used(&joined, 8), [true, true, false]);
    let [a, b, joined] = [a, b, joined].map(|book| charge(&book));
    assert_eq!(a.generals, list(&[(7, 210_000), (8, 525_000)]));
    assert_eq!(b.generals, list(&[(7, 210_000), (8, 525_000)]));
    assert_eq!(joined.generals, list(&[(7, 577_500), (8, 210_000)]));
    assert_eq!(a.specifics, list(&[(8, 75 * 80_000)]));
    assert_eq!(joined.specifics, list(&[(8, 105 * 80_000)]));
}

#[test]
fn order_and_sides_do_not_matter() {
    let rows = many();
    let expected = charge(&interest(&rows));
    let mut turned: Vec<Bytes> = rows.iter().rev().copied().collect();
    assert_eq!(charge(&interest(&turned)), expected);
    for row in &mut turned {
        let (long, short) = row[8..].split_at_mut(4);
        long.swap_with_slice(short);
    }
    assert_eq!(charge(&interest(&turned)), expected);
}
