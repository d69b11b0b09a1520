//! The lines of one commodity's ladder: amounts in thousands, charges in currency units.

use super::{by_matches, Line, Sides};
use crate::ladder::bands::COMMODITY;
use crate::lines::{charge, parts, Shown, Sign::Equal};
use crate::text::whole;
use books::Row;
use market_risk::CommodityLadder;

/// The longs and the shorts of a commodity's rows up to a day.
fn sides(rows: &[Row], group: u64, last: u16) -> Sides {
    let own = |row: &&Row| u64::from(row.group) == group && row.days <= last;
    let own = rows.iter().filter(own);
    Sides {
        long: own.clone().map(|row| i128::from(row.long)).sum(),
        short: own.map(|row| i128::from(row.short)).sum(),
        names: ["long", "short"],
        print: whole,
    }
}

/// The charge in mils, by 1.5% of gross, 13.5% of the residual and 0.6% of what is carried.
fn by_three(gross: i128, residual: i128, carried: i128) -> Shown {
    parts([
        (15_000 * gross, "1.5% of gross"),
        (135_000 * residual, "13.5% of residual"),
        (6_000 * carried, "0.6% of carried"),
    ])
}

/// The lines of a commodity: gross by the matches and by the rows, the residual and what is
/// carried by the rows, and the charge by these three. The call gives no gross: it is that of
/// the rows. Past each band but the last goes the net of all rows up to its last day.
pub fn commodity(rows: &[Row], group: u64, ladder: &CommodityLadder) -> Vec<Line> {
    let residual = ladder.residual.into();
    let all = sides(rows, group, u16::MAX);
    let steps = COMMODITY.map(|last| sides(rows, group, last).net());
    let carried = steps.iter().sum();
    let amount = |value: i128| (value, whole(value));
    let matched = by_matches(ladder.matches.into(), residual, whole);
    let by_steps = (carried, steps.map(whole).join(" + "));
    let by_three = by_three(all.gross(), all.net(), carried);
    vec![
        Line::new("gross", amount(all.gross()), Equal, matched),
        Line::new("gross", amount(all.gross()), Equal, all.sum()),
        Line::new("residual", amount(residual), Equal, all.difference()),
        Line::new("carried", amount(ladder.carried.into()), Equal, by_steps),
        Line::new("charge", charge(ladder.charge), Equal, by_three),
    ]
}

#[cfg(test)]
mod tests {
    use super::super::{broken, show};
    use super::*;

    /// A row of commodity 5.
    fn row(days: u16, long: u32, short: u32) -> Row {
        let row = Row::default().with_group(5);
        row.with_days(days).with_sides(long, short)
    }

    /// E5, and rows of another commodity.
    fn rows() -> Vec<Row> {
        vec![
            row(150, 800, 0),
            row(150, 0, 1000),
            row(600, 600, 0),
            row(1100, 0, 600),
            row(0, 9, 0).with_group(4),
        ]
    }

    /// What a right library gives of E5.
    fn ladder() -> CommodityLadder {
        let mut ladder = CommodityLadder::default();
        ladder.matches = 1_400;
        ladder.carried = 1_200;
        ladder.residual = 200;
        ladder.charge = 79_200_000;
        ladder
    }

    /// How the charge of E5 is made up.
    const PARTS: &str =
        "45,000.000 (1.5% of gross) + 27,000.000 (13.5% of residual) + 7,200.000 (0.6% of carried)";

    /// What does not hold of E5 after a change of its ladder.
    fn told(change: impl Fn(&mut CommodityLadder)) -> Vec<String> {
        let mut ladder = ladder();
        change(&mut ladder);
        let told = broken(&commodity(&rows(), 5, &ladder)).collect::<Vec<_>>();
        let what = |line: &String| line.strip_prefix("does not add up: ").unwrap().into();
        told.iter().map(what).collect()
    }

    #[test]
    fn e5_adds_up() {
        let (two, third) = PARTS.rsplit_once(" + ").unwrap();
        let charge = format!("charge    79,200.000  = {two}");
        let below = format!("{:24}+ {third}", "");
        let lines = [
            "gross          3,000  = 2 x 1,400 matched + 200 residual",
            "gross          3,000  = 1,400 long + 1,600 short",
            "residual         200  = 1,600 short - 1,400 long",
            "carried        1,200  = 0 + 0 + 200 + 200 + 400 + 400",
            &charge,
            &below,
        ];
        let text = show(&commodity(&rows(), 5, &ladder()));
        assert_eq!(text.lines().collect::<Vec<_>>(), lines);
        assert_eq!(told(|_| ()), [""; 0]);
    }

    /// Catches each line that is left out, or is held to another figure: all the others hold.
    #[test]
    fn each_line_is_broken_by_itself() {
        type Change = fn(&mut CommodityLadder);
        let charge = |charge: &str| format!("charge {charge} = {PARTS}");
        let (one_side, one_more) = (charge("58,200.000"), charge("79,200.001"));
        let cases: [(Change, &str); 5] = [
            (
                |ladder| ladder.matches = 1_200,
                "gross 3,000 = 2 x 1,200 matched + 200 residual",
            ),
            (
                |ladder| (ladder.matches, ladder.residual) = (1_500, 0),
                "residual 0 = 1,600 short - 1,400 long",
            ),
            (
                |ladder| ladder.carried = 1_400,
                "carried 1,400 = 0 + 0 + 200 + 200 + 400 + 400",
            ),
            (|ladder| ladder.charge -= 15_000 * 1_400, &one_side),
            (|ladder| ladder.charge += 1, &one_more),
        ];
        for (change, line) in cases {
            assert_eq!(told(change), [line]);
        }
    }

    /// Catches a charge that is held to what the library says was carried.
    #[test]
    fn carried_once_more_does_not_add_up_with_its_charge() {
        let once_more = |ladder: &mut CommodityLadder| {
            ladder.carried += 200;
            ladder.charge += 6_000 * 200;
        };
        let lines = [
            "carried 1,400 = 0 + 0 + 200 + 200 + 400 + 400".to_string(),
            format!("charge 80,400.000 = {PARTS}"),
        ];
        assert_eq!(told(once_more), lines);
    }

    /// Catches a step that is left out or comes a day early or late: one unit at a band's last
    /// day is carried from there on, and at the day after from the next.
    #[test]
    fn steps_are_taken_at_the_last_days_of_the_bands() {
        for (step, last) in [30, 90, 180, 360, 720, 1080].into_iter().enumerate() {
            for (days, first) in [(last, step), (last + 1, step + 1)] {
                let text = show(&commodity(&[row(days, 0, 1)], 5, &ladder()));
                let steps: Vec<&str> = (0..6)
                    .map(|at| ["0", "1"][usize::from(at >= first)])
                    .collect();
                let carried = format!("= {}\n", steps.join(" + "));
                assert!(text.contains(&carried), "{days} days: {text}");
            }
        }
    }

    /// Catches sums that wrap.
    #[test]
    fn figures_near_the_limit_are_told() {
        const MOST: u64 = u64::MAX;
        let all = |ladder: &mut CommodityLadder| {
            *ladder = CommodityLadder::of(&[0, 0, 0, MOST, MOST, MOST, MOST]).unwrap();
        };
        assert_eq!(told(all).len(), 4);
    }
}
