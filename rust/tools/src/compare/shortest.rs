//! The refusals that a run has shown by their shortest files: of each number, class and place, with
//! other bad rows behind, into outputs of each length; and accepted books, of which nothing is shown.

use super::case::Case;
use super::nets::{add, listed};
use super::shortest_sorts::{contents, others, place, CONTENTS, PLACES, SEVERAL};
use books::names::CLASS_NAMES;
use books::Book;
use std::fmt;

/// Counts of first books, and of their outputs.
#[derive(Default)]
pub struct Shown {
    /// Accepted books, into an output of no bytes and of some.
    pub accepted: [u64; 2],
    /// Files refused for their contents, by their sort, where there was room for what shows it.
    pub contents: [u64; 6],
    /// Bad rows by class and by number, 4 to 9, where there was room for one.
    pub rows: [[u64; 6]; 4],
    /// Those refused with 15.
    pub notes: u64,
    /// Bad rows by their place in their class.
    pub places: [u64; 4],
    /// Bad rows with another one behind, in their class and in a later one.
    pub several: [u64; 2],
    /// Outputs of some lengths, whatever is written.
    pub lengths: [u64; 6],
    /// Outputs that are just long enough for eight and for 24 bytes, longer, and one byte short.
    pub rooms: [u64; 6],
}

/// The lengths of outputs that are counted by themselves, and their names.
const LENGTHS: [usize; 6] = [0, 7, 8, 23, 24, 25];
const OF_LENGTHS: [&str; 6] = ["of 0", "of 7", "of 8", "of 23", "of 24", "of 25"];

/// The names of the lengths of outputs beside what is to be written.
const ROOMS: [&str; 6] = [
    "just long enough for eight bytes",
    "longer than eight bytes",
    "one byte short of eight",
    "just long enough for a row",
    "longer than for a row",
    "one byte short for a row",
];

impl Shown {
    /// Counts a bad row, by its number in the whole file.
    fn count_row(&mut self, bytes: &[u8], refusal: &second::Refusal) {
        let book = Book::decode(bytes).expect("the contents are in order");
        let (mut row, mut class) = (refusal.row as usize, 0);
        while row >= book.classes[class].len() {
            row -= book.classes[class].len();
            class += 1;
        }
        match refusal.number {
            15 => self.notes += 1,
            number => self.rows[class][number as usize - 4] += 1,
        }
        add(&mut self.places, place(row, book.classes[class].len()));
        add(&mut self.several, others(&book, class, row));
    }

    /// Counts the first book of a case and its output.
    pub fn count(&mut self, case: &Case) {
        let room = case.shortest_room;
        add(&mut self.lengths, LENGTHS.map(|length| room == length));
        let refusal = second::check(&case.a);
        let Some(file) = second::shortest_file(&case.a) else {
            add(&mut self.accepted, [room == 0, room > 0]);
            return;
        };
        let rooms = [8, 24].map(|length| {
            let beside = [room == length, room > length, room + 1 == length];
            beside.map(|beside| beside && file.len() == length)
        });
        let [[a, b, c], [d, e, f]] = rooms;
        add(&mut self.rooms, [a, b, c, d, e, f]);
        // Without room nothing was written, and nothing compared.
        if room >= file.len() {
            add(&mut self.contents, contents(&case.a, refusal.number, room));
            if refusal.number > 3 {
                self.count_row(&case.a, &refusal);
            }
        }
    }

    /// Every count beside its name.
    pub fn named(&self) -> Vec<(String, u64)> {
        let named = |what: &str, names: &[&str], counts: &[u64]| -> Vec<(String, u64)> {
            let counts = names.iter().zip(counts);
            let named = counts.map(|(name, count)| (format!("{what} {name}"), *count));
            named.collect()
        };
        let of_class = |class: usize| {
            let numbers = (4..=9).zip(self.rows[class]);
            let name = CLASS_NAMES[class];
            numbers.map(move |(number, count)| (format!("shown {number} of {name}"), count))
        };
        [
            named(
                "accepted and not shown,",
                &["into no bytes", "into some"],
                &self.accepted,
            ),
            named("shown", &CONTENTS, &self.contents),
            (0..4).flat_map(of_class).collect(),
            vec![("shown 15".into(), self.notes)],
            named("rows shown that stand", &PLACES, &self.places),
            named("rows shown before another bad one", &SEVERAL, &self.several),
            named("outputs to show", &OF_LENGTHS, &self.lengths),
            named("outputs to show", &ROOMS, &self.rooms),
        ]
        .concat()
    }
}

impl fmt::Display for Shown {
    fn fmt(&self, out: &mut fmt::Formatter) -> fmt::Result {
        let rows: Vec<String> = (0..4)
            .map(|class| format!("{} {:?}", CLASS_NAMES[class], self.rows[class]))
            .collect();
        let [none, some] = self.accepted;
        write!(
            out,
            "refusals shown {}; rows of 4 to 9 {}, 15: {}; standing {}; before another bad row {}\n\
             not shown, for they are accepted, {none} into no bytes and {some} into some; outputs to \
             show {}, {}",
            listed(&CONTENTS, &self.contents),
            rows.join(", "),
            self.notes,
            listed(&PLACES, &self.places),
            listed(&SEVERAL, &self.several),
            listed(&ROOMS, &self.rooms),
            listed(&OF_LENGTHS, &self.lengths)
        )
    }
}

#[cfg(test)]
mod tests {
    use super::*;
    use books::Row;

    /// What is counted of a file, by its names, with so much room.
    fn counted(bytes: &[u8], room: usize) -> Vec<String> {
        let mut shown = Shown::default();
        shown.count(&Case {
            a: bytes.to_vec(),
            shortest_room: room,
            ..Case::new(1, 1)
        });
        let seen = shown.named().into_iter().filter(|(_, count)| *count > 0);
        seen.map(|(name, count)| {
            assert_eq!(count, 1, "{name}");
            name
        })
        .collect()
    }

    /// The bytes of a book with shares and stocks of commodities in these groups.
    fn book(equity: &[u8], commodity: &[u8]) -> Vec<u8> {
        let rows = |kind: u8, groups: &[u8]| -> Vec<Row> {
            let row = Row::default().with_kind(kind).with_sides(1, 0);
            groups.iter().map(|group| row.with_group(*group)).collect()
        };
        let mut book = Book::default();
        (book.classes[1], book.classes[3]) = (rows(1, equity), rows(0, commodity));
        book.encode().unwrap()
    }

    /// Catches a file that is counted for another sort, or without room.
    #[test]
    fn contents_count_by_their_sort() {
        let eight = "outputs to show just long enough for eight bytes";
        let of_8 = "outputs to show of 8";
        let over = [0xa1, 0x0f, 0, 0, 0, 0, 0, 0];
        for (bytes, sort) in [
            (&over[..], "shown 2 in eight bytes"),
            (&[255; 9], "shown 2 with bytes behind"),
            (&[0; 9], "shown 3 without a row counted"),
            (&[0, 1, 0, 0, 0, 0, 0, 0], "shown 3 with rows counted"),
        ] {
            assert_eq!(counted(bytes, 8), [sort, of_8, eight]);
            let longer = "outputs to show longer than eight bytes";
            assert_eq!(counted(bytes, 9), [sort, longer]);
            let short = "outputs to show one byte short of eight";
            assert_eq!(counted(bytes, 7), ["outputs to show of 7", short]);
        }
        let of_0 = "outputs to show of 0";
        assert_eq!(counted(&[0; 7], 0), ["shown 1 into no bytes", of_0]);
        assert_eq!(counted(&[], 9), ["shown 1 into some"]);
        let none = "accepted and not shown, into no bytes";
        assert_eq!(counted(&[0; 8], 0), [none, of_0]);
        assert_eq!(counted(&[0; 8], 9), ["accepted and not shown, into some"]);
    }

    /// Catches a place, a class or another bad row that is counted wrongly.
    #[test]
    fn rows_count_by_class_and_place() {
        let stand = |place: &str| format!("rows shown that stand {place}");
        let longer = "outputs to show longer than for a row".to_string();
        let of = |equity: &[u8], commodity: &[u8]| counted(&book(equity, commodity), 26);
        let equity = "shown 4 of equity".to_string();
        let expected = |place: &str, others: &[&str]| {
            let others = others.iter().map(|other| other.to_string());
            let own = [equity.clone(), stand(place)].into_iter();
            own.chain(others)
                .chain([longer.clone()])
                .collect::<Vec<_>>()
        };
        let in_class = "rows shown before another bad one in its class";
        let later = "rows shown before another bad one in a later class";
        assert_eq!(of(&[32], &[]), expected("alone", &[]));
        assert_eq!(of(&[32, 3], &[3]), expected("first", &[]));
        assert_eq!(of(&[3, 32, 3], &[32]), expected("between", &[later]));
        assert_eq!(of(&[32, 3, 32], &[]), expected("first", &[in_class]));
        assert_eq!(of(&[3, 32], &[]), expected("last", &[]));
        let commodity = ["shown 4 of commodity".into(), stand("last"), longer.clone()];
        assert_eq!(of(&[3], &[3, 32]), commodity);
        assert_eq!(
            counted(&book(&[32], &[]), 23),
            [
                "outputs to show of 23",
                "outputs to show one byte short for a row"
            ]
        );
    }
}
