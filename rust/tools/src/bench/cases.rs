//! The books that are timed, and the tables that they are charged under.

use super::{both, dearest, issues, least_trade, legs, options, refusals};
use books::generate::{row, Shape};
use books::tables::Table;
use books::{Book, Random, ROW_BYTES};

/// Books of one sort, pairs of books that have as many rows together, and a table.
pub struct Case {
    pub name: &'static str,
    pub rows: usize,
    pub books: Vec<Vec<u8>>,
    pub pairs: [Vec<Vec<u8>>; 2],
    pub table: Vec<u8>,
    pub whose: Whose,
}

/// Which calls are timed on a case.
#[derive(Clone, Copy, Debug, PartialEq, Eq)]
pub enum Whose {
    SmallBank,
    Net,
    Offset,
    /// Netting and offsetting in one call.
    Both,
    Shortest,
    Dearest,
    Options,
    LeastTrade,
    /// All the others.
    Others,
}

impl Case {
    /// Whether the table is another than document 01's: only calls that take one are timed.
    pub fn own_table(&self) -> bool {
        self.table != second::table()
    }
}

/// The sorts: their names, their rows, and the classes that rows are taken from in turn.
const SORTS: [(&str, usize, &[usize]); 8] = [
    ("no rows", 0, &[0]),
    ("interest", 400, &[0]),
    ("equity", 400, &[1]),
    ("fx", 400, &[2]),
    ("commodity", 400, &[3]),
    ("all classes", 40, &[0, 1, 2, 3]),
    ("all classes", 400, &[0, 1, 2, 3]),
    ("all classes", 4_000, &[0, 1, 2, 3]),
];

/// The sorts of small banks, which have neither interest nor equity rows.
const SMALL_BANKS: [(&str, usize, &[usize]); 6] = [
    ("no rows", 0, &[2]),
    ("fx", 400, &[2]),
    ("commodity", 400, &[3]),
    ("fx and commodity", 40, &[2, 3]),
    ("fx and commodity", 400, &[2, 3]),
    ("fx and commodity", 4_000, &[2, 3]),
];

/// How many books of a sort there are: a power of two, 16 to 128. So many keep the processor
/// from learning the branches of each, and they stay in its cache.
pub fn count(rows: usize) -> u64 {
    (64_000 / rows.max(1)).clamp(16, 128).next_power_of_two() as u64
}

/// An accepted book with rows of these classes in all groups.
fn book(seed: u64, rows: usize, classes: &[usize]) -> Vec<u8> {
    let mut random = Random::of_case(rows as u64, seed);
    let shape = Shape {
        rows,
        groups: (0..32).collect(),
        without: [None; 32],
    };
    let mut book = Book::default();
    for at in 0..rows {
        let class = classes[at % classes.len()];
        book.classes[class].push(row(&mut random, class, &shape));
    }
    book.encode().expect("at most 4,000 rows")
}

/// Books of a sort; those of another series have other rows.
fn series(number: u64, of: usize, rows: usize, classes: &[usize]) -> Vec<Vec<u8>> {
    let seeds = (0..count(of)).map(|at| 1_000 * number + at);
    seeds.map(|seed| book(seed, rows, classes)).collect()
}

/// A case of accepted books.
pub fn accepted(name: &'static str, rows: usize, classes: &[usize]) -> Case {
    let half = rows / 2;
    Case {
        name,
        rows,
        books: series(0, rows, rows, classes),
        pairs: [1, 2].map(|number| series(number, rows, half, classes)),
        table: second::table().to_vec(),
        whose: Whose::Others,
    }
}

/// An accepted table that has no weight and no per cent in common with document 01's.
const OWN: Table = Table {
    weights: [
        5, 35, 60, 95, 150, 210, 260, 330, 390, 440, 540, 640, 720, 960, 1_500,
    ],
    vertical: 5,
    zones: [25, 20, 35],
    adjacent: 45,
    zones_1_3: 95,
};

/// A case of accepted books of all classes under a table of its own.
fn under_own_table() -> Case {
    Case {
        table: OWN.encode(),
        ..accepted("all classes, own table", 400, &[0, 1, 2, 3])
    }
}

/// Makes the amount of a book's last row too large: the last fault that is looked for.
pub fn spoil(book: &mut [u8]) {
    let at = book.len() - ROW_BYTES;
    for side in [8, 12] {
        let amount = &mut book[at + side..at + side + 4];
        let given = amount.iter().any(|byte| *byte != 0);
        amount.fill(if given { 0xff } else { 0 });
    }
}

/// A case of books, and of second books of a pair, that are refused at the last row.
fn refused(classes: &[usize]) -> Case {
    let mut case = accepted("refused, last row", 400, classes);
    let books = case.books.iter_mut().chain(&mut case.pairs[1]);
    books.for_each(|book| spoil(book));
    case
}

/// All cases, in the order of the tables.
pub fn cases() -> Vec<Case> {
    let sorts = SORTS.iter();
    let accepted = sorts.map(|(name, rows, classes)| accepted(name, *rows, classes));
    let others = [refused(&[0, 1, 2, 3]), under_own_table()];
    let all = accepted.chain(others).chain(small_banks());
    let written = issues::cases().into_iter().chain(legs::cases());
    let written = written.chain(both::cases()).chain(refusals::cases());
    let written = written.chain(dearest::cases()).chain(options::cases());
    all.chain(written).chain(least_trade::cases()).collect()
}

/// The cases of small banks.
fn small_banks() -> impl Iterator<Item = Case> {
    let sorts = SMALL_BANKS.iter();
    let accepted = sorts.map(|(name, rows, classes)| accepted(name, *rows, classes));
    accepted.chain([refused(&[2, 3])]).map(|case| Case {
        whose: Whose::SmallBank,
        ..case
    })
}

#[cfg(test)]
mod tests {
    use super::*;
    use books::names::CLASS_NAMES;
    use books::CLASSES;

    /// The rows of each class that a line with this name and so many rows is about.
    fn named(name: &str, rows: usize) -> [usize; CLASSES] {
        match name {
            "all classes" => [rows / CLASSES; CLASSES],
            "fx and commodity" => [0, 0, rows / 2, rows / 2],
            _ => CLASS_NAMES.map(|class| rows * usize::from(class == name)),
        }
    }

    /// Catches a line whose books are not those that it names.
    #[test]
    fn books_are_what_their_lines_say() {
        let small_banks = small_banks().take(SMALL_BANKS.len());
        for case in cases().into_iter().take(SORTS.len()).chain(small_banks) {
            let rows = |bytes: &[u8]| Book::decode(bytes).unwrap().classes.map(|rows| rows.len());
            let expected = named(case.name, case.rows);
            for book in &case.books {
                assert!(market_risk::check(book).is_ok());
                assert_eq!(rows(book), expected, "{}", case.name);
            }
            for (a, b) in case.pairs[0].iter().zip(&case.pairs[1]) {
                let joined = market_risk::joined(a, b).unwrap();
                assert_eq!(rows(&joined), expected, "{}", case.name);
            }
        }
    }

    /// Catches books without floating-rate notes, or with few: a branch on the kind of a row
    /// would not show.
    #[test]
    fn interest_rows_are_notes_and_bonds() {
        let charged = |case: &&Case| case.rows > 0 && !case.pairs[0].is_empty();
        for case in cases().iter().filter(charged) {
            let books = case.books.iter().chain(case.pairs.iter().flatten());
            let rows: Vec<u8> = books
                .flat_map(|book| Book::decode(book).unwrap().classes[0].clone())
                .map(|row| row.kind)
                .collect();
            for kind in 1..=4 {
                let of_kind = rows.iter().filter(|own| **own == kind).count();
                assert!(5 * of_kind >= rows.len(), "{}: kind {kind}", case.name);
            }
        }
    }

    #[test]
    fn refused_books_are_refused_at_the_last_row() {
        let case = refused(&[0, 1, 2, 3]);
        for book in &case.books {
            let refusal = market_risk::check(book).unwrap_err();
            assert_eq!((refusal.number, refusal.row), (9, 399));
        }
        for book in &refused(&[2, 3]).books {
            let refusal = market_risk::small_bank(book).unwrap_err();
            assert_eq!((refusal.number, refusal.row), (9, 399));
        }
        for (a, b) in case.pairs[0].iter().zip(&case.pairs[1]) {
            let refusal = market_risk::joined(a, b).unwrap_err();
            assert_eq!((refusal.number, refusal.row, refusal.book), (9, 199, 1));
        }
    }

    /// Catches a line of another table that is timed under document 01's, or under a refused
    /// one; and books of it that are not those of the line beside it.
    #[test]
    fn one_line_has_a_table_of_its_own() {
        let cases = cases();
        let own: Vec<&Case> = cases.iter().filter(|case| case.own_table()).collect();
        let [own] = own[..] else {
            panic!("{} lines", own.len());
        };
        let fields = |bytes: &[u8]| Table::decode(bytes).unwrap();
        let (table, amendment) = (fields(&own.table), fields(&second::table()));
        let mut weights = table.weights.iter().zip(amendment.weights);
        assert!(weights.all(|(one, other)| *one != other));
        assert!((30..36).all(|at| own.table[at] != second::table()[at]));
        assert!(second::read_table(&own.table).is_ok());
        let same = |case: &&Case| (case.name, case.rows) == ("all classes", own.rows);
        assert_eq!(own.books, cases.iter().find(same).unwrap().books);
    }

    /// Catches a line of the small bank that is refused with 20 before any row is read.
    #[test]
    fn small_banks_have_no_other_rows() {
        for case in cases().iter().filter(|case| case.whose == Whose::SmallBank) {
            let number = |book: &Vec<u8>| second::small_bank(book).refusal.number;
            let expected = if case.name.starts_with("refused") {
                9
            } else {
                0
            };
            assert!(case.books.iter().all(|book| number(book) == expected));
        }
    }

    #[test]
    fn the_numbers_of_books_are_powers_of_two() {
        for case in cases().iter().filter(|case| !case.pairs[0].is_empty()) {
            let lists = [&case.books, &case.pairs[0], &case.pairs[1]];
            assert!(lists.iter().all(|list| list.len().is_power_of_two()));
        }
    }
}
