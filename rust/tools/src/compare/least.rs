//! What a run must have seen at least.

use super::both::Both;
use super::comparisons::Comparisons;
use super::dearest::Dearest;
use super::floating::Floating;
use super::net_joins::NetJoins;
use super::nets::Nets;
use super::offsets::Offsets;
use super::options;
use super::premises::Premises;
use super::shortest::Shown;
use super::small_banks::SmallBanks;
use super::tables::Tables;
use super::tally::Tally;
use super::trade;

/// What 20,000 cases must show at least: about a third of what they do show.
const LEAST: Tally = Tally {
    accepted: 4_800,
    with_rows: 4_450,
    after_first: 795,
    refused: [
        0, 35, 89, 375, 200, 270, 110, 145, 190, 84, 0, 0, 0, 0, 0, 235,
    ],
    ladder_refused: 675,
    three_zones: 175,
    carried: 695,
    joins: [
        2_500, 55, 135, 610, 325, 420, 170, 235, 295, 135, 0, 15, 1_200, 0, 0, 375,
    ],
    of_second: 1_000,
    premises: Premises {
        joins: 1_350,
        currencies: 1_100,
        beside_three: 430,
        dearer: 170,
    },
    floating: Floating {
        accepted: 1_650,
        joined: 530,
        places: [110, 66, 58],
        ways: [50, 53, 49],
        elsewhere: 155,
    },
    tables: Tables {
        amendment: 1_300,
        others: 4_100,
        charged: 1_950,
        refused: [315, 830],
        ways: [185, 60, 63, 66, 64, 65, 66, 64, 67, 65],
        before_book: [83, 215],
        after_group: 115,
    },
    small_banks: SmallBanks {
        charged: 355,
        unlike_ladder: 615,
        refused: [
            0, 35, 89, 375, 55, 110, 38, 58, 59, 25, 0, 0, 0, 0, 0, 0, 0, 0, 0, 0, 4_450,
        ],
        ways: [2_600, 585, 1_250],
        before_row: [720, 175],
        after_contents: [71, 250],
        joins: 69,
        cheaper: 17,
    },
    nets: Nets {
        sorts: [410, 60, 340, 100, 35, 11],
        refused: [
            0, 35, 89, 375, 200, 270, 110, 145, 190, 84, 0, 0, 1_400, 250, 170, 235,
        ],
        fields: [100, 36, 39, 18, 10],
        orders: [50, 47, 63, 30, 15, 64, 41],
        rooms: [1_650, 1_250, 555],
    },
    comparisons: Comparisons {
        sorts: [675, 270, 160, 26, 850, 330, 30, 1_070],
    },
    net_joins: NetJoins {
        cheaper: 350,
        joins: 88,
        less: 55,
        dearer: 67,
        vanished: 11,
    },
    offsets: Offsets {
        fits: [30, 44, 21, 130, 225],
        misses: [26, 33, 16, 110, 350, 180, 76, 280, 115],
        chains: [150, 134, 132, 179],
        refused: [
            0, 31, 77, 360, 185, 235, 97, 130, 185, 84, 0, 0, 1_600, 0, 0, 215,
        ],
        rooms: [1_900, 1_450, 620],
        costs: [275, 13],
    },
    both: Both {
        sorts: [125, 27, 120, 19, 50],
        refused: [
            0, 28, 71, 335, 170, 220, 89, 126, 177, 79, 0, 0, 1_380, 700, 200, 200,
        ],
        hidden: [130, 16],
        rooms: [1_600, 1_240, 540, 120],
        costs: [35, 24],
    },
    shown: Shown {
        accepted: [1_780, 3_060],
        contents: [23, 37, 17, 76, 31, 217],
        rows: [
            [42, 18, 14, 15, 35, 20],
            [18, 29, 20, 19, 17, 13],
            [20, 32, 22, 19, 19, 13],
            [21, 34, 10, 20, 19, 17],
        ],
        notes: 102,
        places: [196, 158, 176, 111],
        several: [65, 73],
        lengths: [1_920, 410, 475, 390, 550, 386],
        rooms: [121, 223, 64, 280, 370, 130],
    },
    dearest: Dearest {
        rows: [225, 125, 4_800, 160, 110, 285],
        amounts: [95, 90, 4_800, 82, 84, 370],
        refused: [365, 510, 31, 310, 1_850],
        rooms: [2_170, 1_630, 720],
        first: [4_290, 183],
        dear: [3_260, 810, 1_420],
    },
    options: options::LEAST,
    trade: trade::LEAST,
};

/// The cases that `LEAST` is about.
const CASES: u128 = 20_000;

/// A minimum that comes to fewer is not asked for: chance alone could miss it.
const FEWEST: u64 = 10;

impl Tally {
    /// What so many cases should have shown and have not, in words.
    pub fn lacking(&self, cases: u64) -> Vec<String> {
        let wanted = |least: u64| (u128::from(least) * u128::from(cases) / CASES) as u64;
        let counts = self.named().into_iter().zip(LEAST.named());
        let short = counts.filter_map(|((name, count), (_, least))| {
            let wanted = wanted(least);
            (wanted >= FEWEST && count < wanted)
                .then(|| format!("{name}: {count} where at least {wanted} are wanted"))
        });
        short.collect()
    }
}

#[cfg(test)]
mod tests {
    use super::*;

    /// What a run must show, and one number of it that is one too low.
    fn one_short(of: impl Fn(&mut Tally) -> &mut u64) -> Vec<String> {
        let mut tally = LEAST;
        *of(&mut tally) -= 1;
        tally.lacking(20_000)
    }

    /// Catches a minimum that is left out or is nothing: each of these must be missed.
    #[test]
    fn every_count_has_a_minimum() {
        assert!(LEAST.lacking(20_000).is_empty());
        let alone = |of: fn(&mut Tally) -> &mut u64, name: &str| {
            let lacking = one_short(of);
            assert_eq!(lacking.len(), 1, "{name}");
            assert!(lacking[0].starts_with(&format!("{name}: ")), "{lacking:?}");
        };
        alone(|tally| &mut tally.accepted, "books accepted");
        alone(|tally| &mut tally.with_rows, "books accepted with rows");
        alone(
            |tally| &mut tally.after_first,
            "books refused after their first row",
        );
        alone(|tally| &mut tally.ladder_refused, "ladders refused 10");
        alone(
            |tally| &mut tally.three_zones,
            "interest ladders with three zones",
        );
        alone(
            |tally| &mut tally.carried,
            "commodity ladders with amounts carried",
        );
        alone(|tally| &mut tally.joins[0], "joins made");
        alone(
            |tally| &mut tally.of_second,
            "joins refused for the second book",
        );
        alone(
            |tally| &mut tally.premises.joins,
            "joins under the zone premise",
        );
        alone(
            |tally| &mut tally.premises.currencies,
            "currencies joined under their zone premise",
        );
        alone(
            |tally| &mut tally.premises.beside_three,
            "currencies joined beside one with three zones",
        );
        alone(
            |tally| &mut tally.premises.dearer,
            "currencies dearer when joined",
        );
        alone(
            |tally| &mut tally.floating.accepted,
            "books accepted with floating rates",
        );
        alone(
            |tally| &mut tally.floating.joined,
            "joins of books with floating rates",
        );
        alone(
            |tally| &mut tally.floating.elsewhere,
            "books refused 5 for kind 4 of another class",
        );
        for at in 0..3 {
            assert_eq!(one_short(|tally| &mut tally.floating.places[at]).len(), 1);
            assert_eq!(one_short(|tally| &mut tally.floating.ways[at]).len(), 1);
        }
        every_table_has_a_minimum();
        every_small_bank_has_a_minimum();
        every_net_has_a_minimum();
        every_offset_has_a_minimum();
        both_have_a_minimum();
        every_shown_refusal_has_a_minimum();
        every_dearest_book_has_a_minimum();
        for number in (1..=9).chain([15]) {
            let lacking = one_short(|tally| &mut tally.refused[number]);
            assert!(lacking[0].starts_with(&format!("books refused {number}: ")));
        }
        for number in (1..=9).chain([11, 12, 15]) {
            let lacking = one_short(|tally| &mut tally.joins[number]);
            assert!(lacking[0].starts_with(&format!("joins refused {number}: ")));
        }
    }

    /// The same of the tables.
    fn every_table_has_a_minimum() {
        let alone = |of: fn(&mut Tables) -> &mut u64, name: &str| {
            let lacking = one_short(|tally| of(&mut tally.tables));
            assert_eq!(lacking.len(), 1, "{name}");
            assert!(lacking[0].starts_with(&format!("{name}: ")), "{lacking:?}");
        };
        alone(|tables| &mut tables.amendment, "document 01's table");
        alone(|tables| &mut tables.others, "other tables accepted");
        alone(
            |tables| &mut tables.charged,
            "interest rows under other tables",
        );
        alone(|tables| &mut tables.refused[0], "tables refused 18");
        alone(|tables| &mut tables.refused[1], "tables refused 19");
        alone(
            |tables| &mut tables.before_book[0],
            "tables refused 18 before a bad book",
        );
        alone(
            |tables| &mut tables.before_book[1],
            "tables refused 19 before a bad book",
        );
        alone(
            |tables| &mut tables.after_group,
            "bad tables after a ladder's group",
        );
        for way in 0..10 {
            assert_eq!(one_short(|tally| &mut tally.tables.ways[way]).len(), 1);
        }
    }

    /// The same of the small banks.
    fn every_small_bank_has_a_minimum() {
        let alone = |of: &dyn Fn(&mut SmallBanks) -> &mut u64, name: &str| {
            let lacking = one_short(|tally| of(&mut tally.small_banks));
            assert_eq!(lacking.len(), 1, "{name}");
            let name = format!("small banks {name}: ");
            assert!(lacking[0].starts_with(&name), "{lacking:?}");
        };
        alone(&|banks| &mut banks.charged, "charged");
        alone(&|banks| &mut banks.unlike_ladder, "unlike the ladder");
        alone(&|banks| &mut banks.joins, "joined");
        alone(&|banks| &mut banks.cheaper, "cheaper when joined");
        for (at, way) in ["interest alone", "equity alone", "both"]
            .iter()
            .enumerate()
        {
            let name = format!("refused 20 for {way}");
            alone(&|banks| &mut banks.ways[at], &name);
        }
        for (at, row) in ["such a", "another"].iter().enumerate() {
            let name = format!("refused 20 before {row} bad row");
            alone(&|banks| &mut banks.before_row[at], &name);
        }
        for at in 0..2 {
            let name = format!("refused {} before 20", at + 2);
            alone(&|banks| &mut banks.after_contents[at], &name);
        }
        for number in (1..=9).chain([20]) {
            let name = format!("refused {number}");
            alone(&|banks| &mut banks.refused[number], &name);
        }
    }

    /// The same of netting: of each list every count, and of the refusals those that there are.
    fn every_net_has_a_minimum() {
        let alone = |of: &dyn Fn(&mut Tally) -> &mut u64, name: &str| {
            let lacking = one_short(of);
            assert_eq!(lacking.len(), 1, "{name}");
            assert!(lacking[0].contains(name), "{lacking:?}");
        };
        for at in 0..LEAST.nets.sorts.len() {
            alone(&|tally| &mut tally.nets.sorts[at], "books netted with ");
        }
        for at in 0..LEAST.nets.fields.len() {
            alone(&|tally| &mut tally.nets.fields[at], "nets refused 13 for ");
        }
        for at in 0..LEAST.nets.orders.len() {
            alone(&|tally| &mut tally.nets.orders[at], "nets refused, ");
        }
        for at in 0..LEAST.nets.rooms.len() {
            alone(&|tally| &mut tally.nets.rooms[at], "outputs of netting ");
        }
        for number in (1..=9).chain(12..=15) {
            let name = format!("nets refused {number}: ");
            alone(&|tally| &mut tally.nets.refused[number], &name);
        }
        for at in 0..LEAST.comparisons.sorts.len() {
            alone(&|tally| &mut tally.comparisons.sorts[at], "comparisons ");
        }
        alone(&|tally| &mut tally.net_joins.cheaper, "cheaper when netted");
        alone(
            &|tally| &mut tally.net_joins.joins,
            "under the zone premise",
        );
        alone(&|tally| &mut tally.net_joins.less, "than their parts");
        alone(&|tally| &mut tally.net_joins.dearer, "with three zones");
        alone(&|tally| &mut tally.net_joins.vanished, "netted away");
    }

    /// The same of offsetting.
    fn every_offset_has_a_minimum() {
        let alone = |of: &dyn Fn(&mut Offsets) -> &mut u64, name: &str| {
            let lacking = one_short(|tally| of(&mut tally.offsets));
            assert_eq!(lacking.len(), 1, "{name}");
            assert!(lacking[0].starts_with(name), "{lacking:?}");
        };
        for at in 0..LEAST.offsets.fits.len() {
            alone(
                &|offsets| &mut offsets.fits[at],
                "books with legs that fit ",
            );
        }
        for at in 0..LEAST.offsets.misses.len() {
            alone(
                &|offsets| &mut offsets.misses[at],
                "books with rows that miss by ",
            );
        }
        for at in 0..LEAST.offsets.chains.len() {
            alone(&|offsets| &mut offsets.chains[at], "books offset with ");
        }
        for at in 0..LEAST.offsets.rooms.len() {
            alone(&|offsets| &mut offsets.rooms[at], "outputs of offsetting ");
        }
        alone(
            &|offsets| &mut offsets.costs[0],
            "books cheaper when offset: ",
        );
        alone(
            &|offsets| &mut offsets.costs[1],
            "books dearer when offset: ",
        );
        for number in (1..=9).chain([12, 15]) {
            let name = format!("offsets refused {number}: ");
            alone(&|offsets| &mut offsets.refused[number], &name);
        }
    }

    /// The same of netting and then offsetting.
    fn both_have_a_minimum() {
        let alone = |of: &dyn Fn(&mut Both) -> &mut u64, name: &str| {
            let lacking = one_short(|tally| of(&mut tally.both));
            assert_eq!(lacking.len(), 1, "{name}");
            assert!(lacking[0].starts_with(name), "{lacking:?}");
        };
        for at in 0..LEAST.both.sorts.len() {
            alone(&|both| &mut both.sorts[at], "books netted and offset ");
        }
        for at in 0..LEAST.both.rooms.len() {
            alone(&|both| &mut both.rooms[at], "outputs of both ");
        }
        for (at, name) in ["cheaper", "dearer"].iter().enumerate() {
            let name = format!("books netted and offset {name} than ");
            alone(&|both| &mut both.costs[at], &name);
        }
        for (at, number) in [13, 14].iter().enumerate() {
            let name = format!("both refused {number}, hidden ");
            alone(&|both| &mut both.hidden[at], &name);
        }
        for number in (1..=9).chain(12..=15) {
            let name = format!("both refused {number}: ");
            alone(&|both| &mut both.refused[number], &name);
        }
    }

    /// The same of refusals that are shown.
    fn every_shown_refusal_has_a_minimum() {
        let alone = |of: &dyn Fn(&mut Shown) -> &mut u64, name: &str| {
            let lacking = one_short(|tally| of(&mut tally.shown));
            assert_eq!(lacking.len(), 1, "{name}");
            assert!(lacking[0].starts_with(name), "{lacking:?}");
        };
        for at in 0..LEAST.shown.accepted.len() {
            alone(&|shown| &mut shown.accepted[at], "accepted and not shown, ");
        }
        for (at, number) in [1, 1, 2, 2, 3, 3].iter().enumerate() {
            let name = format!("shown {number} ");
            alone(&|shown| &mut shown.contents[at], &name);
        }
        for (class, name) in ["interest", "equity", "fx", "commodity"].iter().enumerate() {
            for number in 4..=9 {
                let name = format!("shown {number} of {name}: ");
                alone(&|shown| &mut shown.rows[class][number - 4], &name);
            }
        }
        alone(&|shown| &mut shown.notes, "shown 15: ");
        for at in 0..LEAST.shown.places.len() {
            alone(&|shown| &mut shown.places[at], "rows shown that stand ");
        }
        for at in 0..LEAST.shown.several.len() {
            let name = "rows shown before another bad one ";
            alone(&|shown| &mut shown.several[at], name);
        }
        for (at, length) in [0, 7, 8, 23, 24, 25].iter().enumerate() {
            let name = format!("outputs to show of {length}: ");
            alone(&|shown| &mut shown.lengths[at], &name);
        }
        for at in 0..LEAST.shown.rooms.len() {
            alone(&|shown| &mut shown.rooms[at], "outputs to show ");
        }
    }

    /// The same of dearest books, and of books that are held to them.
    fn every_dearest_book_has_a_minimum() {
        let alone = |of: &dyn Fn(&mut Dearest) -> &mut u64, name: &str| {
            let lacking = one_short(|tally| of(&mut tally.dearest));
            assert_eq!(lacking.len(), 1, "{name}");
            assert!(lacking[0].starts_with(name), "{lacking:?}");
        };
        for at in 0..LEAST.dearest.rows.len() {
            let name = "dearest books asked for with ";
            alone(&|dearest| &mut dearest.rows[at], name);
        }
        for at in 0..LEAST.dearest.amounts.len() {
            let name = "dearest books asked for of at most ";
            alone(&|dearest| &mut dearest.amounts[at], name);
        }
        for (at, number) in ["22 ", "22 ", "22 ", "22 ", "12: "].iter().enumerate() {
            let name = format!("dearest books refused {number}");
            alone(&|dearest| &mut dearest.refused[at], &name);
        }
        for at in 0..LEAST.dearest.rooms.len() {
            alone(
                &|dearest| &mut dearest.rooms[at],
                "outputs of the dearest book ",
            );
        }
        for at in 0..LEAST.dearest.first.len() {
            alone(
                &|dearest| &mut dearest.first[at],
                "books held to the most, ",
            );
        }
        for at in 0..LEAST.dearest.dear.len() {
            alone(
                &|dearest| &mut dearest.dear[at],
                "dear books held to the most, ",
            );
        }
    }

    /// Catches minimums that do not follow the count of the run.
    #[test]
    fn minimums_follow_the_count() {
        let nothing = Tally::default();
        assert_eq!(
            nothing.lacking(20_000).len(),
            12 + 9 + 18 + 10 + 12 + 21 + 47 + 34 + 26 + 51 + 25 + 79 + 32
        );
        assert!(LEAST.lacking(20_100).len() > 10);
        let half = nothing.lacking(10_000);
        assert!(half.contains(&"nets refused 14: 0 where at least 85 are wanted".to_string()));
        // Few cases may miss the rarest, and very few may miss anything.
        assert_eq!(
            nothing.lacking(9_999).len(),
            12 + 9 + 18 + 10 + 11 + 20 + 42 + 32 + 24 + 33 + 25 + 77 + 31
        );
        assert_eq!(nothing.lacking(41), [""; 0]);
    }
}
