//! Gamma and vega of options, by hand: their signs, what nets with what, and how they are rounded.

mod common;
use common::options::*;

/// Bought options have gamma above zero, calls and puts alike, and that is not charged.
#[test]
fn gamma_of_each_right() {
    for (class, charge) in [(2, 3_200), (3, 3_200), (4, 11_250)] {
        let of = |right| gammas(&[plain(class).gamma(100, 1).right(right)]);
        assert_eq!(of(BOUGHT_CALL), [0; 3]);
        assert_eq!(of(BOUGHT_PUT), [0; 3]);
        let mut charged = [0; 3];
        charged[usize::from(class) - 2] = charge;
        assert_eq!(of(SOLD_CALL), charged);
        assert_eq!(of(SOLD_PUT), charged);
    }
}

/// 8 x 8 / 2 is 32 mils, and 15 x 15 / 2 is 112 and a half: a half is charged as a whole.
#[test]
fn halves_of_a_mil() {
    let sold = |value, gamma| plain(4).right(SOLD_PUT).gamma(value, gamma);
    for (value, gamma, charge) in [
        (1, 0, 0),
        (1, 1, 113),
        (1, 2, 225),
        (2, 1, 225),
        (3, 1, 338),
        (3, 3, 1_013),
        (999_999, 65_535, 7_372_680_127_313),
    ] {
        assert_eq!(gammas(&[sold(value, gamma)]), [0, 0, charge]);
    }
    for class in [2, 3] {
        let sold = plain(class).right(SOLD_CALL).gamma(1, 1);
        assert_eq!(gammas(&[sold])[usize::from(class) - 2], 32);
    }
}

/// Catches each option rounded by itself: two halves of one commodity are a whole. Those of two
/// commodities are rounded one by one.
#[test]
fn halves_are_rounded_after_the_sum() {
    let half = plain(4).right(SOLD_CALL).gamma(1, 1);
    assert_eq!(gammas(&[half, half]), [0, 0, 225]);
    assert_eq!(gammas(&[half, half, half]), [0, 0, 338]);
    assert_eq!(gammas(&[half, half.of(4)]), [0, 0, 226]);
    assert_eq!(gammas(&[half, half.of(4), half, half.of(5)]), [0, 0, 451]);
    let bought = half.right(BOUGHT_PUT);
    assert_eq!(gammas(&[half, bought]), [0, 0, 0]);
    assert_eq!(gammas(&[half, bought, half]), [0, 0, 113]);
}

/// Options on one underlying net, whatever their right and kind, the days of a commodity, or their
/// place in the table.
#[test]
fn gamma_nets_on_one_underlying() {
    let sold = plain(2).right(SOLD_PUT).gamma(100, 7);
    let bought = plain(2).right(BOUGHT_CALL).gamma(300, 2);
    let index = Opt { kind: 3, ..bought };
    // 700 sold, 600 bought; 32 mils each.
    for pair in [[sold, bought], [bought, sold], [sold, index], [index, sold]] {
        assert_eq!(gammas(&pair), [3_200, 0, 0]);
    }
    assert_eq!(gammas(&[sold, plain(3), plain(4), bought]), [3_200, 0, 0]);
    assert_eq!(gammas(&[sold, bought, bought]), [0; 3]);
    let near = plain(4).right(SOLD_CALL).gamma(100, 7);
    let far = Opt {
        days: 36_000,
        ..near.right(BOUGHT_PUT).gamma(100, 5)
    };
    assert_eq!(gammas(&[near, far]), [0, 0, 22_500]);
}

/// What is bought on one underlying takes nothing off what is sold on another.
#[test]
fn gamma_does_not_net_across_groups_or_classes() {
    for class in [2, 3, 4] {
        let sold = plain(class).right(SOLD_CALL).gamma(10, 10).of(0);
        let alone = gammas(&[sold]);
        let bought = sold.right(BOUGHT_CALL).gamma(1_000, 1_000);
        for group in [1, 30, 31] {
            assert_eq!(gammas(&[sold, bought.of(group)]), alone);
            assert_eq!(gammas(&[bought.of(group), sold]), alone);
            let twice = alone.map(|charge| 2 * charge);
            assert_eq!(gammas(&[sold, sold.of(group)]), twice);
        }
        for other in (2..=4).filter(|other| *other != class) {
            let kind = plain(other).kind;
            let bought = Opt {
                class: other,
                kind,
                ..bought
            };
            assert_eq!(gammas(&[sold, bought]), alone);
            assert_eq!(gammas(&[bought, sold]), alone);
        }
    }
}

/// Vega is charged in either direction.
#[test]
fn vega_of_each_right() {
    for class in [2, 3, 4] {
        for right in [BOUGHT_CALL, BOUGHT_PUT, SOLD_CALL, SOLD_PUT] {
            let mut charged = [0; 3];
            charged[usize::from(class) - 2] = 15_000;
            assert_eq!(vegas(&[plain(class).vega(2, 3).right(right)]), charged);
        }
    }
}

/// Either field at 0 is nothing, and the ends of both: 65,535 x 65,535 x 2,500.
#[test]
fn vega_by_volatility() {
    for (vega, volatility, charge) in [
        (0, 65_535, 0),
        (65_535, 0, 0),
        (1, 1, 2_500),
        (1, 65_535, 163_837_500),
        (65_535, 1, 163_837_500),
        (65_535, 65_535, 10_737_090_562_500),
    ] {
        for right in [BOUGHT_PUT, SOLD_PUT] {
            assert_eq!(
                vegas(&[plain(3).right(right).vega(vega, volatility)]),
                [0, charge, 0]
            );
        }
    }
}

/// Bought nets with sold on one underlying, calls with puts, and what is left may be of either sign.
#[test]
fn vega_nets_on_one_underlying() {
    let bought = plain(2).right(BOUGHT_PUT).vega(3, 100);
    let sold = plain(2).right(SOLD_CALL).vega(5, 100);
    let index = Opt { kind: 3, ..sold };
    // 300 bought, 500 sold.
    for pair in [[bought, sold], [sold, bought], [bought, index]] {
        assert_eq!(vegas(&pair), [500_000, 0, 0]);
    }
    // 600 bought, 500 sold.
    assert_eq!(vegas(&[bought, sold, bought]), [250_000, 0, 0]);
    let (call, put) = (bought.right(BOUGHT_CALL), sold.right(SOLD_PUT));
    assert_eq!(vegas(&[call, bought]), [1_500_000, 0, 0]);
    assert_eq!(vegas(&[put, sold]), [2_500_000, 0, 0]);
    // 5 x 60 is 3 x 100.
    assert_eq!(vegas(&[bought, sold.vega(5, 60)]), [0; 3]);
}

#[test]
fn vega_does_not_net_across_groups_or_classes() {
    let bought = |class| plain(class).vega(1, 10);
    let sold = |class| bought(class).right(SOLD_CALL);
    assert_eq!(vegas(&[bought(2), sold(2).of(4)]), [50_000, 0, 0]);
    assert_eq!(vegas(&[bought(3).of(0), sold(3).of(31)]), [0, 50_000, 0]);
    assert_eq!(vegas(&[bought(4), sold(4).of(4)]), [0, 0, 50_000]);
    assert_eq!(vegas(&[bought(2), sold(3)]), [25_000, 25_000, 0]);
    assert_eq!(vegas(&[sold(4), bought(2)]), [25_000, 0, 25_000]);
    assert_eq!(vegas(&[bought(3), sold(4)]), [0, 25_000, 25_000]);
}
