//! The shortest file that shows a refusal: accepted books, contents that are refused, outputs of each
//! length that matters, and random books; bad rows are in `shortest_rows.rs`.

use super::build::{clean, only, shortest, Case};
use super::faults::{bad_rows, contents};
use super::worked;
use books::damage::damage;
use books::generate::{book, Shape};
use books::names::FLOATING;
use books::Random;

/// How many random books there are.
pub const BOOKS: u64 = 40;

/// The lengths of outputs at which the call answers otherwise, and those next to them.
pub const ROOMS: [usize; 6] = [0, 7, 8, 23, 24, 25];

/// Books that are accepted: those that document 01 works by hand, and 4,000 rows of each class.
fn accepted() -> Vec<Vec<u8>> {
    let full = [0, 1, 2, 3].map(|class| only(class, &vec![clean(class); 4_000]));
    [worked::examples(), full.to_vec()].concat()
}

/// Contents with these counts, and so many bytes behind them, each of one value.
fn counting(counts: [u16; 4], value: u8, more: usize) -> Vec<u8> {
    [counts.map(u16::to_le_bytes).concat(), vec![value; more]].concat()
}

/// Files that count too many rows, with bytes behind the contents: as many as they count, and others.
fn too_many() -> Vec<Vec<u8>> {
    vec![
        counting([4_001, 0, 0, 0], 1, 16 * 4_001),
        counting([0, 1, 0, 4_000], 1, 16),
        counting([2_000, 0, 2_001, 0], 1, 16 * 4_000),
        counting([0x0102, 0x0304, 0x0506, 0x0708], 0, 17),
        counting([65_535; 4], 255, 3),
    ]
}

/// Files of a wrong length: without rows, where the first count becomes 1, and with rows, of which
/// there are one too many or too few, or whose count has a low byte of zero.
fn wrong_length() -> Vec<Vec<u8>> {
    let mut files: Vec<Vec<u8>> = [1, 15, 16, 17, 32]
        .map(|more| counting([0; 4], more as u8, more))
        .to_vec();
    files.extend([
        counting([4_000, 0, 0, 0], 1, 16 * 4_001),
        counting([0, 0, 0, 4_000], 1, 16 * 3_999),
        counting([1_000; 4], 0, 16),
        counting([256, 0, 0, 0], 2, 16 * 255),
        counting([0, 0, 256, 0], 2, 0),
        counting([0, 2, 0, 0], 3, 16),
    ]);
    files
}

/// A book that is accepted and one for each number, with its class in turn: the last of two rows.
fn of_each_number() -> Vec<Vec<u8>> {
    let mut books = vec![
        only(2, &[clean(2)]),
        vec![255; 7],
        counting([4_001, 0, 0, 0], 9, 5),
        counting([0; 4], 9, 16),
        counting([0, 0, 0, 1], 9, 0),
    ];
    for (at, class) in [(0, 0), (2, 1), (4, 2), (6, 3), (8, 0), (11, 1)] {
        books.push(only(class, &[clean(class), bad_rows(class)[at]]));
    }
    let note = clean(0).with_kind(FLOATING).with_days(361);
    books.push(only(0, &[clean(0), note]));
    books
}

/// Random books of a seed, as they are or damaged once or twice, each into an output of some length.
fn random(seed: u64) -> Vec<Case> {
    let random_case = |number: u64| {
        let mut random = Random::of_case(seed, 7_000 + number);
        let rows = 1 + random.below(6) as usize;
        let shape = Shape::new(&mut random, rows);
        let mut bytes = book(&mut random, &shape).encode().expect("few rows");
        (0..random.below(3)).for_each(|_| damage(&mut random, &mut bytes));
        let room = match random.once_in(4) {
            true => random.pick(&ROOMS),
            false => 24 + random.below(30) as usize,
        };
        shortest(&bytes, room)
    };
    (0..BOOKS).map(random_case).collect()
}

/// All of them.
pub fn cases(seed: u64) -> Vec<Case> {
    let mut cases: Vec<Case> = Vec::new();
    for book in accepted() {
        cases.extend([0, 25].map(|room| shortest(&book, room)));
    }
    for book in of_each_number() {
        cases.extend(ROOMS.map(|room| shortest(&book, room)));
    }
    let files = [contents(), too_many(), wrong_length()].concat();
    let rooms = [8, 9, 24].into_iter().cycle();
    cases.extend(
        files
            .iter()
            .zip(rooms)
            .map(|(book, room)| shortest(book, room)),
    );
    cases.extend(random(seed));
    cases
}

#[cfg(test)]
mod tests {
    use super::*;

    /// Catches books that are refused for another reason than they are stored for.
    #[test]
    fn refusals_by_hand() {
        let number = |book: &Vec<u8>| second::check(book).number;
        assert!(accepted().iter().all(|book| number(book) == 0));
        assert!(too_many().iter().all(|book| number(book) == 2));
        assert!(wrong_length().iter().all(|book| number(book) == 3));
        let numbers: Vec<u64> = of_each_number().iter().map(number).collect();
        assert_eq!(numbers, [0, 1, 2, 3, 3, 4, 5, 6, 7, 8, 9, 15]);
    }

    /// What is shown of contents that are refused, by hand.
    #[test]
    fn contents_by_hand() {
        let shown = |book: &Vec<u8>| second::shortest_file(book).unwrap();
        assert!(too_many().iter().all(|book| shown(book) == book[..8]));
        let files = wrong_length();
        let (empty, counted) = files.split_at(5);
        let one = [1, 0, 0, 0, 0, 0, 0, 0];
        assert!(empty.iter().all(|book| shown(book) == one));
        assert!(counted.iter().all(|book| shown(book) == book[..8]));
    }

    /// Catches random books that are all accepted or all refused, and outputs that are all alike.
    #[test]
    fn random_books_are_of_all_sorts() {
        let (mut accepted, mut lengths, mut short) = (0, [0; 25], 0);
        for case in random(1) {
            let mut out = match case.call {
                super::super::build::Call::Shortest { room } => vec![0; room as usize],
                _ => panic!("another call"),
            };
            let answer = second::shortest(&case.book, &mut out);
            accepted += usize::from(answer.accepted);
            lengths[answer.length as usize] += 1;
            short += usize::from(!answer.refusal.accepted());
        }
        assert!(accepted > 8 && lengths[24] > 8, "{accepted} {lengths:?}");
        assert!(lengths[8] > 1 && short > 1, "{lengths:?} {short}");
    }
}
