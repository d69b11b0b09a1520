//! The two option tables of a case, and the length of the output of the first.

use super::super::case::room;
use super::cuts::cuts;
use books::options::damage::damaged;
use books::options::random::{size, table, Shape};
use books::options::{decode, encode};
use books::Random;

/// What the call is given of options.
#[derive(Clone, Debug, Default, PartialEq, Eq)]
pub struct OptionTables {
    pub a: Vec<u8>,
    pub b: Vec<u8>,
    /// The length of the output of the first.
    pub room: usize,
}

/// What sets the stream of option tables apart from the others of a seed.
const STREAM: u64 = 0x006f_7074_696f_6e73;

/// A length of the output of a table: every third time none or hardly any where it is refused, which is
/// told all the same.
fn room_of(random: &mut Random, table: &[u8]) -> usize {
    match second::options_book(table) {
        Err(_) if random.once_in(3) => random.pick(&[0, 7, 8]),
        Err(_) => random.below(200) as usize,
        Ok(book) => room(random, book.len()),
    }
}

impl OptionTables {
    /// The tables of the case with this number of a seed, of the same few groups. Every third time the
    /// first is damaged.
    pub fn of_case(seed: u64, number: u64) -> OptionTables {
        let mut random = Random::of_case(seed ^ STREAM, number);
        let shape = Shape::new(&mut random);
        let [first, second] = [0; 2].map(|_| {
            let count = size(&mut random);
            table(&mut random, &shape, count)
        });
        let whole = |options: &[_]| encode(options).expect("at most 1,000 options");
        let a = match random.once_in(3) {
            true => damaged(&mut random, &first),
            false => whole(&first),
        };
        OptionTables {
            room: room_of(&mut random, &a),
            b: whole(&second),
            a,
        }
    }

    /// The options of both tables in one, where their lengths agree with their counts.
    pub fn together(&self) -> Option<Vec<u8>> {
        encode(&[decode(&self.a)?, decode(&self.b)?].concat())
    }

    /// The tables with another first one. The output keeps its distance from what is written, if
    /// anything is.
    fn with_first(&self, a: Vec<u8>) -> OptionTables {
        let [whole, cut] = [&self.a, &a].map(|table| second::options_book(table));
        let room = match (whole, cut) {
            (Ok(whole), Ok(cut)) => (self.room + cut.len()).saturating_sub(whole.len()),
            _ => self.room,
        };
        let b = self.b.clone();
        OptionTables { a, b, room }
    }

    /// The smaller tables next to these: none, an output of no bytes, one that is just long enough or a
    /// byte short, fewer options and plainer ones.
    pub fn smaller(&self) -> impl Iterator<Item = OptionTables> + '_ {
        let with = |room: usize| OptionTables {
            room,
            ..self.clone()
        };
        let written = second::options_book(&self.a).map_or(self.room, |book| book.len());
        // From a byte short on, options can be cut: the output keeps its distance.
        let near = match self.room {
            0 => 0,
            room if room < written => written - 1,
            _ => written,
        };
        let plain = [OptionTables::default(), with(0), with(near)].into_iter();
        let plain = plain.filter(move |plain| plain != self);
        let of_b = cuts(&self.b).map(|b| OptionTables { b, ..self.clone() });
        let of_a = cuts(&self.a).map(|a| self.with_first(a));
        plain.chain(of_b).chain(of_a)
    }
}

#[cfg(test)]
mod tests {
    use super::*;
    use books::options::OptionRow;

    /// Catches tables that are made of another case's numbers, or all alike.
    #[test]
    fn tables_are_made_by_themselves() {
        assert_eq!(OptionTables::of_case(3, 9), OptionTables::of_case(3, 9));
        assert_ne!(OptionTables::of_case(3, 9), OptionTables::of_case(4, 9));
        assert_ne!(OptionTables::of_case(3, 9), OptionTables::of_case(3, 10));
    }

    /// Catches an output that loses its distance from the book when options are cut.
    #[test]
    fn an_output_keeps_its_distance() {
        let option = OptionRow {
            class: 3,
            amount: 7,
            delta: 5_000,
            ..OptionRow::default()
        };
        let whole = OptionTables {
            a: encode(&[option; 4]).unwrap(),
            b: vec![],
            room: 8 + 16 * 4 - 1,
        };
        let fewer = whole.with_first(encode(&[option; 2]).unwrap());
        assert_eq!(fewer.room, 8 + 16 * 2 - 1);
        assert_eq!(whole.with_first(vec![1]).room, whole.room);
        assert!(whole.smaller().any(|smaller| smaller == fewer));
    }
}
