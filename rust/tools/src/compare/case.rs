//! One random case: two books, a table, a group, the lengths of five outputs, what is asked of the
//! dearest book, two option tables, and what is asked of the least trade.

use super::asked::Asked;
use super::e4::{add_e4, add_e4_issue};
use super::options::OptionTables;
use super::trade::Trade;
use books::damage::{damage, damage_note};
use books::generate::{book, interest_book, interest_rows, ladder_book, Shape};
use books::issues::{many, spoil, Issues};
use books::legs::Legs;
use books::refused;
use books::small::{slip_in, small_book};
use books::split;
use books::tables::random::{accepted, broken, nudged, of_wrong_length, WAYS};
use books::{Random, ROW_BYTES};

/// What the calls are given.
#[derive(Clone, Debug, PartialEq, Eq)]
pub struct Case {
    pub a: Vec<u8>,
    pub b: Vec<u8>,
    /// The bytes of the table, one for all the books that are compared.
    pub table: Vec<u8>,
    /// The group of both ladder calls.
    pub group: usize,
    /// The length of join's output.
    pub room: usize,
    /// The length of the output of netting the first book.
    pub net_room: usize,
    /// The length of the output of offsetting it.
    pub offset_room: usize,
    /// The length of the output of doing both.
    pub both_room: usize,
    /// The length of the output of the shortest file that shows its refusal.
    pub shortest_room: usize,
    /// What is asked of the dearest book.
    pub dearest: Asked,
    pub options: OptionTables,
    /// What is asked of the least trade in the first book.
    pub trade: Trade,
    /// The seed of the order in which the sample of demand 3 puts rows.
    pub order: u64,
}

/// How many rows two books have: mostly few, rarely as many as may be joined.
fn sizes(random: &mut Random) -> [usize; 2] {
    if random.once_in(30) {
        let full = [
            [4000, 0],
            [4000, 1],
            [3999, 1],
            [2000, 2000],
            [2000, 2001],
            [1, 4000],
        ];
        return random.pick(&full);
    }
    let most = if random.once_in(24) { 300 } else { 9 };
    [0; 2].map(|_| random.below(most) as usize)
}

/// A group: one of a row, any, or one past the end.
fn group(random: &mut Random, a: &[u8]) -> usize {
    let rows = a.len().saturating_sub(8) / 16;
    match random.below(8) {
        0 => random.pick(&[0, 31, 32, 33, 255, 256, 1 << 32, usize::MAX]),
        1 => random.below(32) as usize,
        _ if rows > 0 => usize::from(a[8 + 16 * random.below(rows as u64) as usize]),
        _ => 0,
    }
}

/// A length of an output, mostly next to what is to be written.
pub fn room(random: &mut Random, written: usize) -> usize {
    match random.below(8) {
        0 => random.pick(&[0, 7, 8, 9, 64_008, 65_536]),
        1 => random.below(written as u64 + 1) as usize,
        2 => written.saturating_sub(1),
        3 => written + 1,
        4 => written + random.below(100) as usize,
        _ => written,
    }
}

/// A length of the output of netting or offsetting a book: every third time none or hardly any where
/// it is refused, which is told all the same.
fn room_of(random: &mut Random, book: &[u8], written: Result<Vec<u8>, second::Refusal>) -> usize {
    match written {
        Err(_) if random.once_in(3) => random.pick(&[0, 7, 8]),
        Err(_) => room(random, book.len()),
        Ok(written) => room(random, written.len()),
    }
}

/// A length of the output of netting and then offsetting a book: every third time next to the netted
/// book, which is not written.
fn room_of_both(random: &mut Random, book: &[u8]) -> usize {
    match second::netted(book) {
        Ok(netted) if random.once_in(3) => room(random, netted.len()),
        _ => room_of(random, book, second::net_and_offset_book(book)),
    }
}

/// A length of the output of the shortest file that shows a book's refusal, which has 0, 8 or 24
/// bytes: one of these and those next to them, any small one, or one next to what is written.
fn room_to_show(random: &mut Random, book: &[u8]) -> usize {
    let file = second::shortest_file(book).unwrap_or_default();
    match random.below(4) {
        0 => random.pick(&[0, 7, 8, 23, 24, 25]),
        1 => random.below(50) as usize,
        _ => room(random, file.len()),
    }
}

/// Two books of any rows, often damaged.
fn any_books(random: &mut Random) -> [Vec<u8>; 2] {
    let mut shape = Shape::new(random, 0);
    sizes(random).map(|rows| {
        shape.rows = rows;
        let mut bytes = book(random, &shape).encode().expect("at most 4,000 rows");
        let hits = [0, 0, 0, 1, 1, 2, 4][random.below(7) as usize];
        (0..hits).for_each(|_| damage(random, &mut bytes));
        bytes
    })
}

/// Two accepted books with interest rows in the same currencies, of which some use at most
/// two zones, others all three; every second time with E4 among them.
fn books_of_currencies(random: &mut Random, table: &[u8]) -> [Vec<u8>; 2] {
    let mut shape = Shape::of_currencies(random, 0);
    let mut books = [0; 2].map(|_| {
        shape.rows = 1 + random.below(16) as usize;
        interest_book(random, &shape)
    });
    if random.once_in(2) {
        add_e4(random, &mut books, table);
    }
    books.map(|book| book.encode().expect("few rows"))
}

/// Two books of interest rows alone. In every second one a row, the first, the last or one
/// between, becomes a floating-rate note at its limits or past them.
fn books_of_notes(random: &mut Random) -> [Vec<u8>; 2] {
    let mut shape = Shape::of_currencies(random, 0);
    [0; 2].map(|_| {
        shape.rows = 1 + random.below(8) as usize;
        let mut bytes = interest_rows(random, &shape).encode().expect("few rows");
        if random.once_in(2) {
            let last = shape.rows - 1;
            let at = 8 + ROW_BYTES * random.pick(&[0, last / 2, last]);
            damage_note(random, &mut bytes[at..at + ROW_BYTES]);
        }
        bytes
    })
}

/// Two accepted books of interest and commodity rows, all in one group, so that many ladders
/// use all three zones or carry amounts.
fn books_of_one_group(random: &mut Random) -> [Vec<u8>; 2] {
    let mut shape = Shape::of_one_group(random, 0);
    [0; 2].map(|_| {
        shape.rows = random.below(25) as usize;
        ladder_book(random, &shape).encode().expect("few rows")
    })
}

/// Two books of foreign exchange and commodities alone, every third damaged, every sixth with a
/// row of interest or equity in it.
fn books_of_small_banks(random: &mut Random) -> [Vec<u8>; 2] {
    let mut shape = Shape::new(random, 0);
    sizes(random).map(|rows| {
        shape.rows = rows;
        let mut book = small_book(random, &shape);
        if random.once_in(6) {
            slip_in(random, &mut book, &shape);
        }
        let mut bytes = book.encode().expect("at most 4,002 rows");
        if random.once_in(3) {
            damage(random, &mut bytes);
        }
        bytes
    })
}

/// Two books whose rows share issue numbers, within a class, across classes and with each other;
/// every third time with E4 among them, in one issue. Every fourth book has one or two rows that are
/// unlike their issue, every tenth is damaged.
fn books_of_issues(random: &mut Random, table: &[u8]) -> [Vec<u8>; 2] {
    let shape = match random.once_in(2) {
        true => Shape::new(random, 0),
        false => Shape::of_currencies(random, 0),
    };
    let issues = Issues::new(random, &shape);
    let most = if random.once_in(40) { 400 } else { 12 };
    let mut books = [0; 2].map(|_| {
        let rows = random.below(most) as usize;
        issues.book(random, rows)
    });
    if random.once_in(3) {
        add_e4_issue(random, &mut books, table);
    }
    books.map(|mut book| {
        if random.once_in(4) {
            (0..=random.below(2)).for_each(|_| spoil(random, &mut book));
        }
        let mut bytes = book.encode().expect("few rows");
        if random.once_in(10) {
            damage(random, &mut bytes);
        }
        bytes
    })
}

/// Two books of very many issues, whose comparisons pass 16 bits.
fn books_of_many_issues(random: &mut Random) -> [Vec<u8>; 2] {
    let shape = Shape::new(random, 0);
    let few = [[400, 30], [450, 0], [500, 1], [600, 400], [800, 90]];
    let full = [[1_500, 0], [4_000, 0]];
    let sizes = if random.once_in(4) { &full[..] } else { &few };
    random.pick(sizes).map(|rows| {
        let book = many(random, &shape, rows);
        book.encode().expect("at most 4,000 rows")
    })
}

/// Two books of swap legs that fit each other, or nearly do; every sixth is damaged.
fn books_of_legs(random: &mut Random) -> [Vec<u8>; 2] {
    let legs = Legs::new(random);
    let most = if random.once_in(40) { 400 } else { 14 };
    [0; 2].map(|_| {
        let rows = random.below(most) as usize;
        let mut bytes = legs.book(random, rows).encode().expect("few rows");
        if random.once_in(6) {
            damage(random, &mut bytes);
        }
        bytes
    })
}

/// Two books of swap legs, some split over rows of one issue; every sixth has a row that is unlike
/// its issue, and every tenth is damaged.
fn books_of_split_legs(random: &mut Random) -> [Vec<u8>; 2] {
    let most = if random.once_in(40) { 200 } else { 9 };
    [0; 2].map(|_| {
        let rows = random.below(most) as usize;
        let mut book = split::book(random, rows);
        if random.once_in(6) {
            spoil(random, &mut book);
        }
        let mut bytes = book.encode().expect("few rows");
        if random.once_in(10) {
            damage(random, &mut bytes);
        }
        bytes
    })
}

/// Two files that are refused, in each way.
fn refused_files(random: &mut Random) -> [Vec<u8>; 2] {
    let most = if random.once_in(40) { 400 } else { 9 };
    [0; 2].map(|_| {
        let rows = random.below(most) as usize;
        refused::file(random, rows)
    })
}

/// A table: mostly an accepted one, often document 01's; else with one condition broken by one,
/// with one byte changed, or of a wrong length.
fn table(random: &mut Random) -> Vec<u8> {
    match random.below(20) {
        0 => of_wrong_length(random),
        1 | 2 => {
            let way = random.below(WAYS as u64) as usize;
            broken(random, way).encode()
        }
        3 => nudged(random),
        4..=7 => second::table().to_vec(),
        _ => accepted(random).encode(),
    }
}

impl Case {
    /// The case with this number of a seed. Every fourth is about issues, every hundredth about
    /// very many of them, every eighth about swap legs, every sixteenth about both, and every
    /// sixteenth about refusals.
    pub fn new(seed: u64, number: u64) -> Case {
        // The table, the options and the trade have streams of their own.
        let table = table(&mut Random::of_case(!seed, number));
        let mut random = Random::of_case(seed, number);
        let [a, b] = match random.below(18) {
            _ if number % 100 == 99 => books_of_many_issues(&mut random),
            _ if number % 4 == 3 => books_of_issues(&mut random, &table),
            _ if number % 8 == 5 => books_of_legs(&mut random),
            _ if number % 16 == 9 => books_of_split_legs(&mut random),
            _ if number % 16 == 1 => refused_files(&mut random),
            0 | 1 => books_of_currencies(&mut random, &table),
            2 | 3 => books_of_notes(&mut random),
            4 | 5 => books_of_one_group(&mut random),
            6 | 7 => books_of_small_banks(&mut random),
            _ => any_books(&mut random),
        };
        Case {
            group: group(&mut random, &a),
            room: room(&mut random, (a.len() + b.len()).saturating_sub(8)),
            order: random.draw(),
            net_room: room_of(&mut random, &a, second::netted(&a)),
            offset_room: room_of(&mut random, &a, second::offset_book(&a)),
            both_room: room_of_both(&mut random, &a),
            shortest_room: room_to_show(&mut random, &a),
            dearest: Asked::new(&mut random),
            options: OptionTables::of_case(seed, number),
            trade: Trade::of_case(seed, number, &a, &table),
            table,
            a,
            b,
        }
    }
}

#[cfg(test)]
mod tests {
    use super::*;

    #[test]
    fn a_case_is_made_by_itself() {
        assert_eq!(Case::new(3, 900), Case::new(3, 900));
        assert_ne!(Case::new(3, 900).a, Case::new(4, 900).a);
    }
}
