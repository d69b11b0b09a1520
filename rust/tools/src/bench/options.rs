//! The option tables that options are timed on: all classes, groups and rights, in any order.

use super::cases::{count, Case, Whose};
use books::options::{encode, OptionRow};
use books::Random;

/// The sorts: their names and their options.
const SORTS: [(&str, usize); 3] = [("no rows", 0), ("options", 40), ("options", 1_000)];

/// Every so manieth option has a delta of 0, and gives no row: as many in each table of a sort, so that
/// their books are of one length.
const WITHOUT_DELTA: usize = 8;

/// An option of the class that is next in turn, with or without a delta.
fn option(random: &mut Random, at: usize) -> OptionRow {
    let class = [2, 3, 4][at % 3];
    let delta = 1 + random.below(10_000) as u16;
    OptionRow {
        class,
        group: random.below(32) as u8,
        right: random.below(4) as u8,
        kind: match class {
            2 => 1 + random.below(3) as u8,
            _ => 0,
        },
        amount: 1 + random.below(1_000_000) as u32,
        delta: if at.is_multiple_of(WITHOUT_DELTA) {
            0
        } else {
            delta
        },
        gamma: random.below(1_000) as u16,
        vega: random.below(1_000) as u16,
        volatility: random.below(10_000) as u16,
        days: match class {
            4 => random.below(1_500) as u16,
            _ => 0,
        },
    }
}

/// The tables of a sort.
fn tables(options: usize) -> Vec<Vec<u8>> {
    let table = |seed: u64| {
        let mut random = Random::of_case(20_000 + options as u64, seed);
        let mut list: Vec<OptionRow> = (0..options).map(|at| option(&mut random, at)).collect();
        random.shuffle(&mut list);
        encode(&list).expect("at most 1,000 options")
    };
    (0..count(options)).map(table).collect()
}

/// All cases: what they have in the place of books is option tables. No call on pairs is timed on them.
pub fn cases() -> impl Iterator<Item = Case> {
    SORTS.into_iter().map(|(name, rows)| Case {
        name,
        rows,
        books: tables(rows),
        pairs: [vec![], vec![]],
        table: second::table().to_vec(),
        whose: Whose::Options,
    })
}

#[cfg(test)]
mod tests {
    use super::*;
    use books::options::decode;
    use books::Book;

    /// Catches tables that are refused, or are not as their lines say; and books of other lengths than
    /// the first, whose last bytes would stay in the output.
    #[test]
    fn tables_are_what_their_lines_say() {
        for (case, (name, count)) in cases().zip(SORTS) {
            assert_eq!((case.name, case.rows), (name, count));
            assert!(case.books.len().is_power_of_two());
            for table in &case.books {
                assert_eq!(decode(table).unwrap().len(), count);
                let book = Book::decode(&second::options_book(table).unwrap()).unwrap();
                let rows = book.classes.map(|rows| rows.len());
                assert_eq!(rows[0], 0);
                assert_eq!(rows.iter().sum::<usize>(), count - count / WITHOUT_DELTA);
                assert!(rows[1..].iter().all(|rows| 4 * rows >= count));
            }
        }
    }

    /// Catches figures that are all zero, so that they are not worked out, and tables that are alike.
    #[test]
    fn every_class_is_charged() {
        for case in cases().filter(|case| case.rows > 0) {
            let mut figures: Vec<Vec<u64>> = Vec::new();
            for table in &case.books {
                let options = second::options(table, &mut [0; 16_008]);
                assert!(options.gammas.iter().all(|gamma| *gamma > 0));
                assert!(options.vegas.iter().all(|vega| *vega > 0));
                assert!(options.charges[2..].iter().all(|charge| *charge > 0));
                figures.push(options.entries().to_vec());
            }
            figures.sort_unstable();
            figures.dedup();
            assert_eq!(figures.len(), case.books.len());
        }
    }
}
