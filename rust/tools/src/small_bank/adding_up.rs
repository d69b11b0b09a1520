//! The three charges of a small bank in lines that a user can check by hand: the first two by
//! the positions, the total by the library's own two.

use super::positions::{sum, Holdings, Position};
use crate::lines::{charge, parts, Line, Shown, Sign::Equal};
use crate::text::mils;
use market_risk::SmallBank;

/// 15% of a commodity's net and 3% of its gross, in mils.
pub fn simplified(position: &Position) -> i128 {
    150_000 * position.net() + 30_000 * position.gross()
}

/// 8% of the greater of the summed net longs and net shorts, and of gold's net.
fn exchange(holdings: &Holdings) -> Shown {
    let long = sum(&holdings.currencies, Position::net_long);
    let short = sum(&holdings.currencies, Position::net_short);
    let greater = match long >= short {
        true => (80_000 * long, "8% of net long"),
        false => (80_000 * short, "8% of net short"),
    };
    parts([greater, (80_000 * holdings.gold.net(), "8% of gold")])
}

/// 15% of the summed nets, and 3% of the summed gross positions.
fn commodity(holdings: &Holdings) -> Shown {
    let net = sum(&holdings.commodities, Position::net);
    let gross = sum(&holdings.commodities, Position::gross);
    parts([
        (150_000 * net, "15% of net"),
        (30_000 * gross, "3% of gross"),
    ])
}

/// The sum of both charges.
fn total(charged: &SmallBank) -> Shown {
    let [exchange, commodity] = [charged.exchange, charged.commodity].map(i128::from);
    let text = format!("{} + {}", mils(exchange), mils(commodity));
    (exchange + commodity, text)
}

/// The lines of a small bank's charges.
pub fn lines(holdings: &Holdings, charged: &SmallBank) -> Vec<Line> {
    let line = |name, figure, right| Line::new(name, charge(figure), Equal, right);
    vec![
        line("foreign exchange", charged.exchange, exchange(holdings)),
        line("commodity", charged.commodity, commodity(holdings)),
        line("total", charged.total, total(charged)),
    ]
}

#[cfg(test)]
mod tests {
    use super::*;
    use crate::lines::{broken, show};
    use crate::small_bank::positions::Positions;

    fn position(long: i128, short: i128) -> Position {
        Position { long, short }
    }

    /// Currencies net 300 long and 200 short, gold 35 short: 8% of 335. Commodities net 10 and
    /// 200, gross 10 and 3,000: 15% of 210 and 3% of 3,010.
    fn right() -> (Holdings, SmallBank) {
        let holdings = Holdings {
            currencies: Positions::from([(1, position(350, 50)), (2, position(0, 200))]),
            gold: position(0, 35),
            commodities: Positions::from([(0, position(10, 0)), (5, position(1_400, 1_600))]),
        };
        let mut charged = SmallBank::default();
        charged.exchange = 26_800_000;
        charged.commodity = 121_800_000;
        charged.total = 148_600_000;
        (holdings, charged)
    }

    /// What does not hold after a change of the charges.
    fn told(change: impl Fn(&mut SmallBank)) -> Vec<String> {
        let (holdings, mut charged) = right();
        change(&mut charged);
        broken(&lines(&holdings, &charged)).collect()
    }

    #[test]
    fn a_right_bank_adds_up() {
        let (holdings, charged) = right();
        let text = show(&lines(&holdings, &charged));
        let expected = [
            "foreign exchange   26,800.000  = 24,000.000 (8% of net long) + 2,800.000 (8% of gold)",
            "commodity         121,800.000  = 31,500.000 (15% of net) + 90,300.000 (3% of gross)",
            "total             148,600.000  = 26,800.000 + 121,800.000",
        ];
        assert_eq!(text.lines().collect::<Vec<_>>(), expected);
        assert_eq!(told(|_| ()), [""; 0]);
    }

    /// Catches the smaller side, or the longs whatever they are.
    #[test]
    fn the_greater_side_is_charged() {
        let (mut holdings, _) = right();
        let mut by = |long, short| {
            holdings.currencies =
                Positions::from([(1, position(long, 0)), (2, position(0, short))]);
            exchange(&holdings)
        };
        let gold = "2,800.000 (8% of gold)";
        for (long, short, greater) in [
            (4, 5, "400.000 (8% of net short)"),
            (5, 4, "400.000 (8% of net long)"),
            (5, 5, "400.000 (8% of net long)"),
        ] {
            assert_eq!(by(long, short), (3_200_000, format!("{greater} + {gold}")));
        }
    }

    /// Catches a figure that no line holds, and one by which another's line is broken too.
    #[test]
    fn each_line_is_broken_by_itself() {
        type Change = fn(&mut SmallBank);
        let cases: [(Change, &str); 4] = [
            (
                |charged| (charged.exchange, charged.total) = (26_800_001, 148_600_001),
                "foreign exchange 26,800.001 = 24,000.000 (8% of net long) + 2,800.000 (8% of gold)",
            ),
            (
                |charged| (charged.commodity, charged.total) = (121_799_999, 148_599_999),
                "commodity 121,799.999 = 31,500.000 (15% of net) + 90,300.000 (3% of gross)",
            ),
            (
                |charged| charged.total += 1,
                "total 148,600.001 = 26,800.000 + 121,800.000",
            ),
            (
                |charged| charged.total = 0,
                "total 0.000 = 26,800.000 + 121,800.000",
            ),
        ];
        for (change, line) in cases {
            assert_eq!(told(change), [format!("does not add up: {line}")]);
        }
    }

    /// Catches sums that wrap.
    #[test]
    fn figures_near_the_limit_are_told() {
        let all = |charged: &mut SmallBank| {
            (charged.exchange, charged.commodity) = (u64::MAX, u64::MAX);
            charged.total = u64::MAX - 1;
        };
        assert_eq!(told(all).len(), 3);
    }
}
