//! What a table must hold (document 02, P10), in words.

use crate::text::whole;
use books::tables::text::{per_cents, PER_CENTS};
use books::tables::{self, BANDS, TABLE_BYTES};
use market_risk::{Refusal, Table};

/// The largest weight, in basis points.
const MOST_WEIGHT: u16 = 2_000;

/// The pairs of per cents, by their places, of which the first may not be over the second:
/// vertical and each zone, each zone and adjacent, adjacent and 1-3.
const IN_ORDER: [[usize; 2]; 7] = [[0, 1], [0, 2], [0, 3], [1, 4], [2, 4], [3, 4], [4, 5]];

/// The weights that fall or are too large.
fn of_weights(weights: &[u16; BANDS]) -> Vec<String> {
    let mut told = Vec::new();
    for (band, weight) in weights.iter().enumerate() {
        let what = format!("the weight of band {band} is {}", whole(*weight));
        if band > 0 && *weight < weights[band - 1] {
            let before = whole(weights[band - 1]);
            told.push(format!("{what}, below band {}'s {before}", band - 1));
        }
        if *weight > MOST_WEIGHT {
            told.push(format!("{what}, over {}", whole(MOST_WEIGHT)));
        }
    }
    told
}

/// The per cents that are out of order or too large.
fn of_per_cents(per_cents: &[u8; 6]) -> Vec<String> {
    let mut told = Vec::new();
    for [low, high] in IN_ORDER {
        let [name, limit] = [low, high].map(|place| PER_CENTS[place]);
        let [value, most] = [low, high].map(|place| per_cents[place]);
        if value > most {
            told.push(format!("{name} is {value}%, over {limit}'s {most}%"));
        }
    }
    if per_cents[5] > 100 {
        told.push(format!("{} is {}%, over 100%", PER_CENTS[5], per_cents[5]));
    }
    told
}

/// Every condition that a table breaks.
fn broken(table: &[u8]) -> Vec<String> {
    match tables::Table::decode(table) {
        Some(table) => [of_weights(&table.weights), of_per_cents(&per_cents(&table))].concat(),
        None => vec![format!("the file has {} bytes", whole(table.len() as u64))],
    }
}

/// The number that the broken conditions lead to, 0 for none.
fn number(table: &[u8], broken: &[String]) -> u64 {
    match (table.len(), broken) {
        (TABLE_BYTES, []) => 0,
        (TABLE_BYTES, _) => 19,
        _ => 18,
    }
}

/// What the library says of a table, held to the conditions.
fn judge(table: &[u8], library: Result<Table, Refusal>) -> Result<Table, String> {
    let broken = broken(table);
    let expected = number(table, &broken);
    let words = broken.join("\n");
    match library {
        Ok(table) if expected == 0 => Ok(table),
        Err(refusal) if refusal.number == expected => Err(format!("{refusal}\n{words}")),
        other => {
            let given = other.map_or_else(|refusal| refusal.number, |_| 0);
            let doubt = format!("the library gives {given}, the conditions lead to {expected}");
            Err([doubt, words].join("\n").trim_end().into())
        }
    }
}

/// The table in these bytes, or its refusal with every broken condition.
pub fn accepted(table: &[u8]) -> Result<Table, String> {
    judge(table, Table::new(table))
}

#[cfg(test)]
mod tests {
    use super::*;

    /// Document 01's table after a change.
    fn changed(change: impl Fn(&mut [u8; 36])) -> [u8; 36] {
        let mut table = *Table::amendment().bytes();
        change(&mut table);
        table
    }

    /// What is told of document 01's table after a change, below the refusal's own line.
    fn told(change: impl Fn(&mut [u8; 36])) -> Vec<String> {
        let text = accepted(&changed(change)).unwrap_err();
        let (refusal, words) = text.split_once('\n').unwrap();
        assert!(refusal.starts_with("refused 19: "), "{refusal}");
        words.lines().map(String::from).collect()
    }

    #[test]
    fn weights_are_told_with_their_bands() {
        let words = told(|table| table[10] = 124);
        assert_eq!(words, ["the weight of band 5 is 124, below band 4's 125"]);
        let words = told(|table| table[0] = 21);
        assert_eq!(words, ["the weight of band 1 is 20, below band 0's 21"]);
        // 2,001 is 0x07d1.
        let words = told(|table| table[28..30].copy_from_slice(&[0xd1, 0x07]));
        assert_eq!(words, ["the weight of band 14 is 2,001, over 2,000"]);
        let words = told(|table| table[27] = 0xff);
        let both = [
            "the weight of band 13 is 65,312, over 2,000",
            "the weight of band 14 is 1,250, below band 13's 65,312",
        ];
        assert_eq!(words, both);
    }

    #[test]
    fn per_cents_are_told_with_their_names() {
        let cases: [([u8; 6], &str); 8] = [
            (
                [45, 44, 50, 50, 60, 70],
                "vertical is 45%, over zone-1's 44%",
            ),
            (
                [45, 50, 44, 50, 60, 70],
                "vertical is 45%, over zone-2's 44%",
            ),
            (
                [45, 50, 50, 44, 60, 70],
                "vertical is 45%, over zone-3's 44%",
            ),
            (
                [45, 61, 50, 50, 60, 70],
                "zone-1 is 61%, over adjacent's 60%",
            ),
            (
                [45, 50, 61, 50, 60, 70],
                "zone-2 is 61%, over adjacent's 60%",
            ),
            (
                [45, 50, 50, 61, 60, 70],
                "zone-3 is 61%, over adjacent's 60%",
            ),
            (
                [45, 50, 50, 50, 71, 70],
                "adjacent is 71%, over zones-1-3's 70%",
            ),
            ([45, 50, 50, 50, 60, 101], "zones-1-3 is 101%, over 100%"),
        ];
        for (per_cents, words) in cases {
            assert_eq!(
                told(|table| table[30..].copy_from_slice(&per_cents)),
                [words]
            );
        }
    }

    /// Catches a condition that is not strict enough, or too strict, at its limit.
    #[test]
    fn limits_themselves_are_accepted() {
        let tables = [
            [0; 36],
            changed(|table| table[30..].fill(100)),
            changed(|table| table[30..].fill(0)),
            changed(|table| table[..30].copy_from_slice(&[0xd0, 0x07].repeat(15))),
        ];
        for table in tables {
            assert_eq!(accepted(&table).unwrap().bytes(), &table);
        }
    }

    #[test]
    fn another_length_is_told() {
        let expected = "refused 18: the table has not 36 bytes\nthe file has 35 bytes";
        assert_eq!(accepted(&[0; 35]).unwrap_err(), expected);
    }

    /// Catches a look at the library alone, or at the conditions alone.
    #[test]
    fn a_library_that_disagrees_is_not_believed() {
        let refusal = |number| {
            Err(Refusal {
                number,
                row: 0,
                book: 0,
            })
        };
        let right = *Table::amendment().bytes();
        let wrong = changed(|table| table[35] = 101);
        for (table, library, expected) in [
            (
                &right[..],
                refusal(19),
                "the library gives 19, the conditions lead to 0",
            ),
            (
                &wrong,
                Ok(Table::amendment()),
                "the library gives 0, the conditions lead to 19\nzones-1-3 is 101%, over 100%",
            ),
            (
                &right[..35],
                refusal(1),
                "the library gives 1, the conditions lead to 18\nthe file has 35 bytes",
            ),
        ] {
            assert_eq!(judge(table, library).unwrap_err(), expected);
        }
    }
}
