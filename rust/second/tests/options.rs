//! Options, by hand: the Amendment's example, the book of the deltas, and the charges of the whole.

mod common;
use common::options::*;
use common::*;
use second::{check, options, options_book};

/// The entries of a call with more room than any book needs.
fn entries(of: &[Opt]) -> [u64; 17] {
    options(&option_table(of), &mut [0; 16_008]).entries()
}

/// The book that is written for some options.
fn written(of: &[Opt]) -> Vec<u8> {
    options_book(&option_table(of)).unwrap()
}

/// The amounts on the two sides of the one row that an option gives.
fn amounts(of: Opt) -> [u32; 2] {
    let book = written(&[of]);
    assert_eq!(book.len(), 24);
    [16, 20].map(|at| u32::from_le_bytes(book[at..at + 4].try_into().unwrap()))
}

/// Section C.4, fifty times over: a sold call on 25,000 of a commodity, delta 0.721. Its gamma of 0.0034
/// for a move of 1 in 500 is 0.017 for 1%; its vega is 1.68 a point, at 20 points of volatility. Fifty
/// times 54.075, 9.5625 and 8.4. 25,000 is 0x61a8, 7,210 is 0x1c2a, 2,000 is 0x7d0, 1,081 is 0x439.
#[test]
fn the_example_of_the_amendment() {
    let option = [
        4, 9, 2, 0, 0xa8, 0x61, 0, 0, 0x2a, 0x1c, 170, 0, 84, 0, 0xd0, 0x07, 0x39, 0x04,
    ];
    let table = [&[1, 0], &option[..]].concat();
    // 18,025 is 0x4669.
    let row = [9, 0, 0x39, 0x04, 0, 0, 0, 0, 0, 0, 0, 0, 0x69, 0x46, 0, 0];
    let book = [&[0, 0, 0, 0, 0, 0, 1, 0], &row[..]].concat();
    assert_eq!(options_book(&table), Ok(book.clone()));
    let mut out = [0; 24];
    let (delta, gamma, vega) = (2_703_750_000, 478_125_000, 420_000_000);
    assert_eq!(
        options(&table, &mut out).entries(),
        [0, 0, 0, 24, 0, 0, gamma, 0, 0, vega, 0, 0, 0, 0, 0, delta, delta]
    );
    assert_eq!(out[..], book);
}

#[test]
fn a_table_of_none() {
    assert_eq!(options_book(&[0, 0]), Ok(vec![0; 8]));
    let mut all = [0; 17];
    all[3] = 8;
    assert_eq!(entries(&[]), all);
}

/// Calls that are bought and puts that are sold gain when the underlying rises.
#[test]
fn sides_of_each_right() {
    for class in [2, 3, 4] {
        let of = |right| amounts(plain(class).right(right));
        assert_eq!(of(BOUGHT_CALL), [50, 0]);
        assert_eq!(of(BOUGHT_PUT), [0, 50]);
        assert_eq!(of(SOLD_CALL), [0, 50]);
        assert_eq!(of(SOLD_PUT), [50, 0]);
    }
}

/// Catches an amount that is cut off, rounded to the nearest, or one too many where it is whole.
#[test]
fn amounts_are_rounded_up() {
    for (value, delta, amount) in [
        (1, 1, 1),
        (1, 9_999, 1),
        (1, 10_000, 1),
        (2, 5_000, 1),
        (2, 5_001, 2),
        (3, 5_000, 2),
        (10_000, 1, 1),
        (10_001, 1, 2),
        (9_999, 1, 1),
        (500, 7_210, 361),
        (1_000, 7_210, 721),
        (20_000, 7_211, 14_422),
        (20_001, 7_211, 14_423),
        (999_999, 9_999, 999_900),
        (999_999, 10_000, 999_999),
        (1_000_000, 9_999, 999_900),
        (1_000_000, 10_000, 1_000_000),
    ] {
        let option = plain(3).delta(value, delta);
        assert_eq!(amounts(option), [amount, 0], "{value} {delta}");
        let exact = u64::from(value) * u64::from(delta);
        let written = 10_000 * u64::from(amount);
        assert!(exact <= written && written < exact + 10_000);
    }
}

/// A delta of 0 gives no row; the gamma and the vega of the option count all the same.
#[test]
fn a_delta_of_0() {
    let none = plain(2)
        .right(SOLD_PUT)
        .delta(1_000, 0)
        .gamma(1_000, 5)
        .vega(2, 300);
    assert_eq!(written(&[none]), vec![0; 8]);
    let mut all = [0; 17];
    // 1,000 x 5 x 64 / 2, and 2 x 300 x 2,500.
    (all[3], all[4], all[7]) = (8, 160_000, 1_500_000);
    assert_eq!(entries(&[none]), all);
    let between = [plain(3), plain(3).delta(7, 0), plain(3).of(4)];
    let fx = exchange(&[(3, 50), (4, 50)]);
    assert_eq!(written(&between), fx);
}

/// Group, kind and days go into the row, and nothing into coupon and issue.
#[test]
fn fields_of_a_row() {
    let full = |class| plain(class).gamma(100, 65_535).vega(65_535, 65_535);
    for kind in [1, 2, 3] {
        for group in [0, 31] {
            let share = Opt {
                kind,
                ..full(2).of(group)
            };
            assert_eq!(written(&[share]), equity(&[row(group, kind, 0, 0, 50)]));
        }
    }
    for group in [0, 31] {
        assert_eq!(written(&[full(3).of(group)]), exchange(&[(group, 50)]));
    }
    for days in [0, 255, 256, 36_000] {
        let stock = Opt {
            days,
            ..full(4).of(5)
        };
        assert_eq!(written(&[stock]), commodity(&[(days, 50)]));
    }
}

/// Ten options with their classes in turn: each class has its own in the order of the table.
fn mixed() -> Vec<Opt> {
    let at = |class: u8, group: u8, value: u32, right: u8| {
        plain(class).of(group).delta(value, 5_000).right(right)
    };
    vec![
        at(4, 5, 2, BOUGHT_CALL),
        at(2, 9, 4, SOLD_CALL),
        at(3, 1, 6, BOUGHT_PUT),
        at(2, 9, 8, SOLD_PUT),
        at(4, 5, 10, SOLD_PUT),
        at(3, 0, 12, SOLD_CALL),
        at(2, 0, 14, BOUGHT_CALL),
        at(4, 5, 2, BOUGHT_CALL),
        at(3, 1, 16, BOUGHT_CALL),
        at(2, 9, 4, SOLD_CALL),
    ]
}

#[test]
fn rows_keep_their_order_within_a_class() {
    let shares = [(9, -2), (9, 4), (0, 7), (9, -2)].map(|(group, net)| row(group, 1, 0, 0, net));
    let fx = [(1, -3), (0, -6), (1, 8)].map(|(group, net)| row(group, 0, 0, 0, net));
    let stock = [1, 5, 1].map(|net| row(5, 0, 0, 0, net));
    let expected = book([&[], &shares, &fx, &stock]);
    assert_eq!(written(&mixed()), expected);
    assert_eq!(expected[..8], [0, 0, 4, 0, 3, 0, 3, 0]);
}

/// By hand. Shares: 8% of 15, and 8% of the nets 0 and 7. Foreign exchange: 8% of 5 and of gold's 6.
/// Commodity 5: 15% of 7, and six steps of 0.6%.
#[test]
fn charges_of_the_written_book() {
    let charges = [0, 0, 1_200_000, 560_000, 880_000, 1_302_000, 3_942_000];
    assert_eq!(entries(&mixed())[10..], charges);
    let report = charge(&written(&mixed()));
    assert_eq!(report.entries()[3..10], charges);
}

/// Gamma and vega stand beside the total of the book, not in it.
#[test]
fn the_total_is_the_books() {
    let sold: Vec<Opt> = mixed()
        .iter()
        .map(|one| one.right(SOLD_CALL).vega(3, 7))
        .map(|one| one.gamma(one.value, 1))
        .collect();
    let all = entries(&sold);
    assert!(all[4..10].iter().all(|figure| *figure > 0));
    let report = charge(&written(&sold));
    assert_eq!(all[10..], report.entries()[3..10]);
}

/// The largest figures: 1,000 options at the end of every range. 1,000,000 x 65,535 x 225 / 2 mils of
/// gamma each, and 65,535 x 65,535 x 2,500 of vega; of the book 15% and six steps of 0.6%.
#[test]
fn a_thousand_options_at_their_limits() {
    let most = Opt {
        class: 4,
        group: 31,
        right: SOLD_PUT,
        kind: 0,
        value: 1_000_000,
        delta: 10_000,
        gamma: 65_535,
        vega: 65_535,
        volatility: 65_535,
        days: 0,
    };
    let delta = 186_000_000_000_000;
    let gamma = 7_372_687_500_000_000;
    let vega = 10_737_090_562_500_000;
    let thousand = vec![most; 1_000];
    assert_eq!(
        entries(&thousand),
        [0, 0, 0, 16_008, 0, 0, gamma, 0, 0, vega, 0, 0, 0, 0, 0, delta, delta]
    );
    assert_eq!(check(&written(&thousand)).number, 0);
}
