//! The lines of one currency's ladder. A weighted position is a tenth of the currency unit,
//! which is 100 mils.

use super::{by_matches, Line, Sides};
use crate::ladder::bands::{band, column};
use crate::lines::Sign::{AtLeast, AtMost, Equal};
use crate::text::{mils, weighted};
use books::Row;
use market_risk::{InterestLadder, Table};

/// The weighted longs and the weighted shorts of a currency's rows.
fn of_rows(rows: &[Row], group: u64, table: &Table) -> (i128, i128) {
    let own = rows.iter().filter(|row| u64::from(row.group) == group);
    let weights = table.weights().map(i128::from);
    let weight = |row: &Row| weights[band(column(row), row.days)];
    let longs = own.clone().map(|row| weight(row) * i128::from(row.long));
    let shorts = own.map(|row| weight(row) * i128::from(row.short));
    (longs.sum(), shorts.sum())
}

/// The seven match sums together.
fn matched(ladder: &InterestLadder) -> i128 {
    let within = [ladder.vertical].into_iter().chain(ladder.zones);
    let between = [ladder.zones_1_2, ladder.zones_2_3, ladder.zones_1_3];
    within.chain(between).map(i128::from).sum()
}

/// The lines of a currency: gross by the matches and by the rows, the residual by the rows,
/// and the two bounds of the charge.
pub fn interest(rows: &[Row], group: u64, table: &Table, ladder: &InterestLadder) -> Vec<Line> {
    interest_of(of_rows(rows, group, table), ladder)
}

/// The same lines by weighted longs and weighted shorts, wherever they come from.
pub fn interest_of((long, short): (i128, i128), ladder: &InterestLadder) -> Vec<Line> {
    let [gross, residual, charge] = [ladder.gross, ladder.residual, ladder.charge].map(i128::from);
    let all = Sides {
        long,
        short,
        names: ["weighted long", "weighted short"],
        print: weighted,
    };
    let position = |value: i128| (value, weighted(value));
    let in_mils = |value: i128| (value, mils(value));
    let matched = by_matches(matched(ladder), residual, weighted);
    let left = format!("{} residual", weighted(all.net()));
    let both = format!("{} gross + {left}", weighted(all.gross()));
    let least = (100 * all.net(), left);
    let most = (100 * (all.gross() + all.net()), both);
    vec![
        Line::new("gross", position(gross), Equal, matched),
        Line::new("gross", position(gross), Equal, all.sum()),
        Line::new("residual", position(residual), Equal, all.difference()),
        Line::new("charge", in_mils(charge), AtLeast, least),
        Line::new("2 x charge", in_mils(2 * charge), AtMost, most),
    ]
}

#[cfg(test)]
mod tests {
    use super::super::{broken, show};
    use super::*;

    /// A government bond of currency 7, coupon 8%.
    fn bond(days: u16, long: u32, short: u32) -> Row {
        let row = Row::default().with_group(7).with_kind(1).with_coupon(800);
        row.with_days(days).with_sides(long, short)
    }

    /// The keyed book of samples/README.md: each row weighs 5,250.
    fn keyed() -> Vec<Row> {
        vec![bond(270, 75, 0), bond(1080, 0, 30), bond(2880, 14, 0)]
    }

    /// What a right library gives of it: zones 1 and 2 match, zone 3 is left.
    fn ladder() -> InterestLadder {
        let mut ladder = InterestLadder::default();
        ladder.gross = 15_750;
        ladder.zones_1_2 = 5_250;
        ladder.residual = 5_250;
        ladder.charge = 735_000;
        ladder
    }

    /// What does not hold of the keyed book after a change of its ladder.
    fn told(change: impl Fn(&mut InterestLadder)) -> Vec<String> {
        let mut ladder = ladder();
        change(&mut ladder);
        let told = broken(&interest(&keyed(), 7, &Table::amendment(), &ladder)).collect::<Vec<_>>();
        let what = |line: &String| line.strip_prefix("does not add up: ").unwrap().into();
        told.iter().map(what).collect()
    }

    #[test]
    fn the_keyed_book_adds_up() {
        let lines = [
            "gross         1,575.0   = 2 x 525.0 matched + 525.0 residual",
            "gross         1,575.0   = 1,050.0 weighted long + 525.0 weighted short",
            "residual        525.0   = 1,050.0 weighted long - 525.0 weighted short",
            "charge        735.000  >= 525.0 residual",
            "2 x charge  1,470.000  <= 1,575.0 gross + 525.0 residual",
        ];
        let text = show(&interest(&keyed(), 7, &Table::amendment(), &ladder()));
        assert_eq!(text.lines().collect::<Vec<_>>(), lines);
        assert_eq!(told(|_| ()), [""; 0]);
    }

    /// Catches each line that is left out, or is held to another figure: all the others hold.
    #[test]
    fn each_line_is_broken_by_itself() {
        type Change = fn(&mut InterestLadder);
        let cases: [(Change, &str); 5] = [
            (
                |ladder| ladder.zones_1_2 = 0,
                "gross 1,575.0 = 2 x 0.0 matched + 525.0 residual",
            ),
            (
                |ladder| (ladder.zones_1_3, ladder.gross) = (1, 15_752),
                "gross 1,575.2 = 1,050.0 weighted long + 525.0 weighted short",
            ),
            (
                |ladder| (ladder.zones_1_3, ladder.residual) = (1, 5_248),
                "residual 524.8 = 1,050.0 weighted long - 525.0 weighted short",
            ),
            (
                |ladder| ladder.charge = 524_999,
                "charge 524.999 >= 525.0 residual",
            ),
            (
                |ladder| ladder.charge = 1_050_001,
                "2 x charge 2,100.002 <= 1,575.0 gross + 525.0 residual",
            ),
        ];
        for (change, line) in cases {
            assert_eq!(told(change), [line]);
        }
        for bound in [525_000, 1_050_000] {
            assert_eq!(told(|ladder| ladder.charge = bound), [""; 0]);
        }
    }

    /// Catches bounds that are taken from the library's own gross and residual.
    #[test]
    fn the_bounds_of_the_charge_are_those_of_the_rows() {
        let too_low = |ladder: &mut InterestLadder| {
            (ladder.residual, ladder.charge) = (5_000, 510_000);
        };
        let line = "charge 510.000 >= 525.0 residual";
        assert!(told(too_low).contains(&line.into()));
        let bound = "2 x charge 2,400.000 <= 1,575.0 gross + 525.0 residual".to_string();
        let gross = |ladder: &mut InterestLadder| {
            (ladder.gross, ladder.charge) = (20_000, 1_200_000);
        };
        assert!(told(gross).contains(&bound));
        let residual = |ladder: &mut InterestLadder| {
            (ladder.residual, ladder.charge) = (10_000, 1_200_000);
        };
        assert!(told(residual).contains(&bound));
    }

    /// Catches a sum that leaves one of the seven matches out.
    #[test]
    fn each_match_counts() {
        let matches: [fn(&mut InterestLadder) -> &mut u64; 7] = [
            |ladder| &mut ladder.vertical,
            |ladder| &mut ladder.zones[0],
            |ladder| &mut ladder.zones[1],
            |ladder| &mut ladder.zones[2],
            |ladder| &mut ladder.zones_1_2,
            |ladder| &mut ladder.zones_2_3,
            |ladder| &mut ladder.zones_1_3,
        ];
        for of in matches {
            let line = "gross 1,575.0 = 2 x 525.1 matched + 525.0 residual";
            assert_eq!(told(|ladder| *of(ladder) += 1), [line]);
        }
    }

    /// Part of the residual moved to zones 1 and 3, both at 100%, leaves the charge as it is.
    /// The short bond set against both long ones costs 420, which is less than what is left.
    #[test]
    fn a_match_made_up_does_not_add_up() {
        let moved = [
            "gross 1,575.0 = 2 x 725.0 matched + 325.0 residual",
            "residual 325.0 = 1,050.0 weighted long - 525.0 weighted short",
        ];
        assert_eq!(
            told(|ladder| (ladder.zones_1_3, ladder.residual) = (2_000, 3_250)),
            moved
        );
        let used_twice = |ladder: &mut InterestLadder| {
            (ladder.zones_2_3, ladder.residual, ladder.charge) = (5_250, 0, 420_000);
        };
        let lines = [
            "gross 1,575.0 = 2 x 1,050.0 matched + 0.0 residual",
            "residual 0.0 = 1,050.0 weighted long - 525.0 weighted short",
            "charge 420.000 >= 525.0 residual",
        ];
        assert_eq!(told(used_twice), lines);
    }

    /// Catches rows of other currencies, one column for both coupons, and a net with its sign:
    /// 700 days weigh 1.25% at a coupon of 3%, and 1.75% below.
    #[test]
    fn only_own_rows_count_at_their_own_weights() {
        let rows = [
            bond(700, 1, 0),
            bond(700, 0, 4).with_coupon(299),
            bond(700, 9, 0).with_group(8),
            bond(30, 9, 0),
        ];
        let (ladder, table) = (InterestLadder::default(), Table::amendment());
        let text = show(&interest(&rows, 7, &table, &ladder));
        assert!(
            text.contains("= 12.5 weighted long + 70.0 weighted short\n"),
            "{text}"
        );
        assert!(
            text.contains("= 70.0 weighted short - 12.5 weighted long\n"),
            "{text}"
        );
        assert!(text.contains(">= 57.5 residual\n"), "{text}");
        assert!(text.contains("<= 82.5 gross + 57.5 residual\n"), "{text}");
        assert_eq!(broken(&interest(&rows, 9, &table, &ladder)).count(), 0);
    }

    /// Catches document 01's weights in the place of the table's: 60 days bear 3 basis points.
    #[test]
    fn rows_bear_the_weights_of_the_table() {
        let mut bytes = [0; 36];
        bytes[..30].copy_from_slice(&[3, 0].repeat(15));
        let table = Table::new(&bytes).unwrap();
        let rows = [bond(60, 40, 0), bond(30, 0, 10), bond(9_000, 0, 10)];
        let text = show(&interest(&rows, 7, &table, &InterestLadder::default()));
        assert!(
            text.contains("= 12.0 weighted long + 6.0 weighted short\n"),
            "{text}"
        );
    }

    /// Catches sums that wrap: a residual with its sign may stand for a very large one.
    #[test]
    fn figures_near_the_limit_are_told() {
        assert_eq!(
            told(|ladder| ladder.residual = 0u64.wrapping_sub(5_250)).len(),
            2
        );
        let all = |ladder: &mut InterestLadder| {
            let mut entries = [u64::MAX; 13];
            entries[0] = 0;
            *ladder = InterestLadder::of(&entries).unwrap();
        };
        assert_eq!(told(all).len(), 4);
    }
}
