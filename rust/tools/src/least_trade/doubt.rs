//! The library's answer, held to the charges that are calculated here.

use super::curve::{Curve, MOST};
use crate::text::{mils, whole};

/// The first amount up to a last one that is within the limit though the library passed it over.
fn within(curve: &Curve, limit: u64, last: u64, told: &str) -> Option<String> {
    let amounts = curve.looked_at(last).into_iter();
    let charges = amounts.map(|amount| (amount, curve.charge(amount)));
    let mut within = charges.filter(|(_, charge)| *charge <= i128::from(limit));
    let (amount, charge) = within.next()?;
    let [charge, limit] = [charge, limit.into()].map(mils);
    let amount = whole(amount);
    Some(format!(
        "{told}, and with {amount} the charge is {charge}, within {limit}"
    ))
}

/// An amount with which the charge is over the limit.
fn over(curve: &Curve, limit: u64, amount: u64, told: &str) -> Option<String> {
    let (charge, limit) = (curve.charge(amount), i128::from(limit));
    let [shown, most] = [charge, limit].map(mils);
    (charge > limit).then(|| format!("{told}, and with it the charge is {shown}, over {most}"))
}

/// All that cannot be so of an answer: an amount out of its range or over the limit, or one passed over
/// that is within it.
pub fn doubt(curve: &Curve, limit: u64, answer: Option<u64>) -> Vec<String> {
    let Some(amount) = answer else {
        let none = within(curve, limit, MOST, "the library finds no amount");
        return none.into_iter().collect();
    };
    let told = format!("the library's amount is {}", whole(amount));
    if amount > MOST {
        return vec![format!("{told}, and {} is the most", whole(MOST))];
    }
    let before = amount.checked_sub(1);
    let passed = before.and_then(|last| within(curve, limit, last, &told));
    let over = over(curve, limit, amount, &told);
    over.into_iter().chain(passed).collect()
}

#[cfg(test)]
mod tests {
    use super::super::asked::Asked;
    use super::*;
    use books::Row;
    use market_risk::{Side, Table};

    /// What is told of an answer for shorts in band 5 beside a bond long 100 there: 17.5 for each unit, and
    /// 1.75 for each that is matched.
    fn told(limit: u64, answer: Option<u64>) -> Vec<String> {
        let bond = Row::default().with_group(7).with_kind(1).with_coupon(800);
        let rows = [bond.with_days(900).with_sides(100, 0)];
        let (group, band, side) = (7, 5, Side::Short);
        let asked = Asked {
            group,
            band,
            side,
            limit,
        };
        let table = Table::amendment();
        doubt(&Curve::new(&rows, &asked, &table), limit, answer)
    }

    #[test]
    fn right_answers_are_not_doubted() {
        for (limit, answer) in [
            (1_000_000, Some(48)),
            (994_000, Some(48)),
            (993_999, Some(49)),
            (1_750_000, Some(0)),
            (1_749_999, Some(1)),
            (175_000, Some(100)),
            (174_999, None),
            (0, None),
            (u64::MAX, Some(0)),
        ] {
            assert_eq!(told(limit, answer), [""; 0], "{limit}");
        }
    }

    /// Catches an answer of which one side alone is looked at, and a limit that is one off.
    #[test]
    fn wrong_answers_are_told() {
        for (limit, answer, why) in [
            (
                1_000_000,
                Some(49),
                "amount is 49, and with 48 the charge is 994.000, within 1,000.000",
            ),
            (
                994_000,
                Some(49),
                "amount is 49, and with 48 the charge is 994.000, within 994.000",
            ),
            (
                1_000_000,
                Some(47),
                "amount is 47, and with it the charge is 1,009.750, over 1,000.000",
            ),
            (
                993_999,
                Some(48),
                "amount is 48, and with it the charge is 994.000, over 993.999",
            ),
            (
                1_750_000,
                Some(1),
                "amount is 1, and with 0 the charge is 1,750.000, within 1,750.000",
            ),
            (
                1_749_999,
                Some(0),
                "amount is 0, and with it the charge is 1,750.000, over 1,749.999",
            ),
            (
                0,
                Some(1_000_001),
                "amount is 1,000,001, and 1,000,000 is the most",
            ),
            (
                0,
                Some(u64::MAX),
                "amount is 18,446,744,073,709,551,615, and 1,000,000 is the most",
            ),
        ] {
            assert_eq!(told(limit, answer), [format!("the library's {why}")]);
        }
        // The only amount that is within, where the charge turns.
        let why = "the library finds no amount, and with 100 the charge is 175.000, within 175.000";
        assert_eq!(told(175_000, None), [why]);
        // 100 more short than long cost 1,750 and 175.
        let both = [
            "the library's amount is 200, and with it the charge is 1,925.000, over 175.000",
            "the library's amount is 200, and with 100 the charge is 175.000, within 175.000",
        ];
        assert_eq!(told(175_000, Some(200)), both);
    }
}
