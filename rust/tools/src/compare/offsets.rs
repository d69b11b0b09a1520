//! The books that a run has offset: with legs at each limit and past it, in chains, into outputs of
//! each length, and refused in each way.

use super::case::Case;
use super::nets::{add, listed};
use super::offset_sorts::{of_chains, of_fits, of_misses, CHAINS, FITS, MISSES};
use books::Book;
use std::fmt;

/// Counts of first books, and of their outputs.
#[derive(Default)]
pub struct Offsets {
    /// Books by the limits at which two legs fit, where there was room for what is left.
    pub fits: [u64; 5],
    /// Those by what alone keeps two rows from fitting.
    pub misses: [u64; 9],
    /// Those by their chains.
    pub chains: [u64; 4],
    /// Books by the number of their refusal, 1 to 9, 12 or 15.
    pub refused: [u64; 16],
    /// Outputs that are just long enough, longer, and one byte short.
    pub rooms: [u64; 3],
    /// Books that cost less and more when they are offset, under an accepted table.
    pub costs: [u64; 2],
}

/// The numbers of this call's refusals.
fn numbers() -> impl Iterator<Item = usize> {
    (1..=9).chain([12, 15])
}

/// The names of the lengths of outputs.
const ROOMS: [&str; 3] = [
    "that are just long enough",
    "that are longer",
    "that are one byte short",
];

/// What offsetting may do to a total.
const COSTS: [&str; 2] = ["cheaper when offset", "dearer when offset"];

impl Offsets {
    /// Counts the first book of a case and its output.
    pub fn count(&mut self, case: &Case) {
        let room = case.offset_room;
        let refusal = second::offset(&case.a, &mut vec![0; room]).refusal;
        self.refused[refusal.number as usize] += 1;
        let Ok(left) = second::offset_book(&case.a) else {
            return;
        };
        let length = left.len();
        let rooms = [room == length, room > length, room + 1 == length];
        add(&mut self.rooms, rooms);
        let [book, rows] = [&case.a, &left].map(|book| Book::decode(book).unwrap_or_default());
        // Without room nothing was written, and nothing compared.
        if room >= length {
            add(&mut self.fits, of_fits(&book));
            add(&mut self.misses, of_misses(&book));
            add(&mut self.chains, of_chains(&book, &rows));
        }
        if second::read_table(&case.table).is_ok() {
            let [own, after] = [&case.a, &left].map(|book| second::charge(book, &case.table).total);
            add(&mut self.costs, [after < own, after > own]);
        }
    }

    /// Every count beside its name.
    pub fn named(&self) -> Vec<(String, u64)> {
        let named = |what: &str, names: &[&str], counts: &[u64]| -> Vec<(String, u64)> {
            let counts = names.iter().zip(counts);
            let named = counts.map(|(name, count)| (format!("{what} {name}"), *count));
            named.collect()
        };
        let refused = numbers().map(|at| (format!("offsets refused {at}"), self.refused[at]));
        [
            named("outputs of offsetting", &ROOMS, &self.rooms),
            named("books with legs that fit", &FITS, &self.fits),
            named("books with rows that miss by", &MISSES, &self.misses),
            named("books offset with", &CHAINS, &self.chains),
            named("books", &COSTS, &self.costs),
            refused.collect(),
        ]
        .concat()
    }
}

impl fmt::Display for Offsets {
    fn fmt(&self, out: &mut fmt::Formatter) -> fmt::Result {
        let refused: Vec<String> = numbers()
            .map(|number| format!("{number}: {}", self.refused[number]))
            .collect();
        write!(
            out,
            "books offset {}: {}; {}\noutputs of offsetting {}; refused {}\nlegs that fit {}\nrows \
             that miss by {}",
            self.refused[0],
            listed(&CHAINS, &self.chains),
            listed(&COSTS, &self.costs),
            listed(&ROOMS, &self.rooms),
            refused.join(", "),
            listed(&FITS, &self.fits),
            listed(&MISSES, &self.misses)
        )
    }
}

#[cfg(test)]
mod tests {
    use super::*;
    use books::Row;

    /// A leg by days and net.
    fn leg(days: u16, net: i64) -> Row {
        let [long, short] = [net.max(0), (-net).max(0)].map(|side| side as u32);
        let row = Row::default().with_kind(1).with_days(days);
        row.with_coupon(800).with_sides(long, short)
    }

    /// What is counted of a book of legs, by its names, with so much room and a table.
    fn counted(legs: &[(u16, i64)], room: usize, table: &[u8]) -> Vec<String> {
        let mut book = Book::default();
        book.classes[0] = legs.iter().map(|(days, net)| leg(*days, *net)).collect();
        let mut offsets = Offsets::default();
        offsets.count(&Case {
            a: book.encode().unwrap(),
            offset_room: room,
            table: table.to_vec(),
            ..Case::new(1, 1)
        });
        let seen = offsets.named().into_iter().filter(|(_, count)| *count > 0);
        seen.map(|(name, count)| {
            assert_eq!(count, 1, "{name}");
            name
        })
        .collect()
    }

    /// Catches an output or a cost that is counted for another, and books that count without room.
    #[test]
    fn outputs_and_costs_are_told_apart() {
        let pair = [(361, 5), (391, -5)];
        let fits = "books with legs that fit 30 days apart";
        let counted_with = |room: usize| counted(&pair, room, &[0; 35]);
        assert_eq!(
            counted_with(8),
            ["outputs of offsetting that are just long enough", fits]
        );
        assert_eq!(
            counted_with(9),
            ["outputs of offsetting that are longer", fits]
        );
        let short = "outputs of offsetting that are one byte short";
        assert_eq!(counted_with(7), [short, "offsets refused 12"]);
        assert_eq!(counted_with(0), ["offsets refused 12"]);
        let cheaper = counted(&pair, 0, &second::table());
        assert_eq!(cheaper, ["books cheaper when offset", "offsets refused 12"]);
        let chain = [(360, 100), (367, -100), (370, 100)];
        let dearer = counted(&chain, 0, &second::table());
        assert_eq!(dearer, ["books dearer when offset", "offsets refused 12"]);
        let turned = [chain[2], chain[1], chain[0]];
        let cheaper = counted(&turned, 0, &second::table());
        assert_eq!(cheaper, ["books cheaper when offset", "offsets refused 12"]);
        let refused = counted(&[(36_001, 5)], 100, &second::table());
        assert_eq!(refused, ["offsets refused 6"]);
    }
}
