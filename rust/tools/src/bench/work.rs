//! What is timed: a call on books that lie in memory.

use super::least_trade::Trade;
use std::any::type_name;
use std::hint::black_box;

/// What every entry and byte of a result is before a run.
const OLD_ENTRY: u64 = 0x5555_5555_5555_5555;
pub const OLD_BYTE: u8 = 0x55;

/// The groups of a book; a power of two, as the books are.
pub const GROUPS: usize = 32;

/// A result: its entries, and the bytes of its output.
#[derive(Clone, Debug, PartialEq, Eq)]
pub struct Answer {
    pub entries: Vec<u64>,
    pub output: Vec<u8>,
}

/// A call that can be run on each of its books and keeps its last result.
pub trait Work {
    /// Runs the call on the book, or the books, with this number.
    fn run(&mut self, at: usize);
    /// Overwrites the last result, so that a run that does not happen shows.
    fn forget(&mut self);
    /// The last result.
    fn answer(&self) -> Answer;
    /// The path of the function that runs, as the compiler has it.
    fn path(&self) -> &'static str;
}

/// The book with this number. There are a power of two of them: no division is timed.
#[inline(always)]
fn pick(books: &[Vec<u8>], at: usize) -> &[u8] {
    black_box(&books[at & (books.len() - 1)])
}

/// A call on a book, and on a group of it where the call has one: the number of the run, below 32.
struct OfBook<'a, F, const N: usize> {
    books: &'a [Vec<u8>],
    call: F,
    path: &'static str,
    entries: [u64; N],
}

impl<F: Fn(&[u8], usize, &mut [u64; N]), const N: usize> Work for OfBook<'_, F, N> {
    fn run(&mut self, at: usize) {
        (self.call)(pick(self.books, at), at & (GROUPS - 1), &mut self.entries);
        black_box(&mut self.entries);
    }
    fn forget(&mut self) {
        self.entries = [OLD_ENTRY; N];
    }
    fn answer(&self) -> Answer {
        Answer {
            entries: self.entries.to_vec(),
            output: Vec::new(),
        }
    }
    fn path(&self) -> &'static str {
        self.path
    }
}

/// A call on a book.
pub fn of_book<'a, F, const N: usize>(books: &'a [Vec<u8>], call: F) -> Box<dyn Work + 'a>
where
    F: Fn(&[u8], &mut [u64; N]) + 'a,
{
    Box::new(OfBook {
        books,
        call: move |book: &[u8], _, entries: &mut [u64; N]| call(book, entries),
        path: type_name::<F>(),
        entries: [OLD_ENTRY; N],
    })
}

/// A call on a book and one of its 32 groups.
pub fn of_group<'a, F, const N: usize>(books: &'a [Vec<u8>], call: F) -> Box<dyn Work + 'a>
where
    F: Fn(&[u8], usize, &mut [u64; N]) + 'a,
{
    Box::new(OfBook {
        books,
        call,
        path: type_name::<F>(),
        entries: [OLD_ENTRY; N],
    })
}

/// A call on a book under a table.
pub fn of_table<'a, F, const N: usize>(
    books: &'a [Vec<u8>],
    table: &'a [u8],
    call: F,
) -> Box<dyn Work + 'a>
where
    F: Fn(&[u8], &[u8], &mut [u64; N]) + 'a,
{
    Box::new(OfBook {
        books,
        call: move |book: &[u8], _, entries: &mut [u64; N]| call(book, black_box(table), entries),
        path: type_name::<F>(),
        entries: [OLD_ENTRY; N],
    })
}

/// A call on a book and one of its 32 groups under a table.
pub fn of_table_and_group<'a, F, const N: usize>(
    books: &'a [Vec<u8>],
    table: &'a [u8],
    call: F,
) -> Box<dyn Work + 'a>
where
    F: Fn(&[u8], &[u8], usize, &mut [u64; N]) + 'a,
{
    Box::new(OfBook {
        books,
        call: move |book: &[u8], group, entries: &mut [u64; N]| {
            call(book, black_box(table), group, entries)
        },
        path: type_name::<F>(),
        entries: [OLD_ENTRY; N],
    })
}

/// A call on a book under a table, with a place for a trade and a limit of each book's own.
pub fn of_trades<'a, F>(
    books: &'a [Vec<u8>],
    table: &'a [u8],
    trades: Vec<Trade>,
    call: F,
) -> Box<dyn Work + 'a>
where
    F: Fn(&[u8], &[u8], usize, usize, usize, u64, &mut [u64; 5]) + 'a,
{
    Box::new(OfBook {
        books,
        call: move |book: &[u8], at: usize, entries: &mut [u64; 5]| {
            let Trade { place, limit } = black_box(trades[at & (trades.len() - 1)]);
            let [group, band, side] = place;
            call(book, black_box(table), group, band, side, limit, entries)
        },
        path: type_name::<F>(),
        entries: [OLD_ENTRY; 5],
    })
}

/// A call on two books that writes a third.
struct OfPair<'a, F> {
    pairs: &'a [Vec<Vec<u8>>; 2],
    call: F,
    output: Vec<u8>,
    entries: [u64; 4],
}

impl<F: Fn(&[u8], &[u8], &mut [u8], &mut [u64; 4])> Work for OfPair<'_, F> {
    fn run(&mut self, at: usize) {
        let (a, b) = (pick(&self.pairs[0], at), pick(&self.pairs[1], at));
        (self.call)(a, b, &mut self.output, &mut self.entries);
        black_box((&mut self.entries, &mut self.output));
    }
    fn forget(&mut self) {
        self.entries = [OLD_ENTRY; 4];
        self.output.fill(OLD_BYTE);
    }
    fn answer(&self) -> Answer {
        Answer {
            entries: self.entries.to_vec(),
            output: self.output.clone(),
        }
    }
    fn path(&self) -> &'static str {
        type_name::<F>()
    }
}

/// A call on two books and an output that has room for both.
pub fn of_pair<'a, F>(pairs: &'a [Vec<Vec<u8>>; 2], call: F) -> Box<dyn Work + 'a>
where
    F: Fn(&[u8], &[u8], &mut [u8], &mut [u64; 4]) + 'a,
{
    let room = pairs[0][0].len() + pairs[1][0].len() - 8;
    Box::new(OfPair {
        pairs,
        call,
        output: vec![OLD_BYTE; room],
        entries: [OLD_ENTRY; 4],
    })
}

/// A call on a book that writes another.
struct OfOutput<'a, F, const N: usize> {
    books: &'a [Vec<u8>],
    call: F,
    output: Vec<u8>,
    entries: [u64; N],
}

impl<F: Fn(&[u8], &mut [u8], &mut [u64; N]), const N: usize> Work for OfOutput<'_, F, N> {
    fn run(&mut self, at: usize) {
        (self.call)(pick(self.books, at), &mut self.output, &mut self.entries);
        black_box((&mut self.entries, &mut self.output));
    }
    fn forget(&mut self) {
        self.entries = [OLD_ENTRY; N];
        self.output.fill(OLD_BYTE);
    }
    fn answer(&self) -> Answer {
        Answer {
            entries: self.entries.to_vec(),
            output: self.output.clone(),
        }
    }
    fn path(&self) -> &'static str {
        type_name::<F>()
    }
}

/// A call on a book and an output that is as long.
pub fn of_output<'a, F, const N: usize>(books: &'a [Vec<u8>], call: F) -> Box<dyn Work + 'a>
where
    F: Fn(&[u8], &mut [u8], &mut [u64; N]) + 'a,
{
    in_room(books, books[0].len(), call)
}

/// The same with an output of so many bytes.
pub fn in_room<'a, F, const N: usize>(
    books: &'a [Vec<u8>],
    room: usize,
    call: F,
) -> Box<dyn Work + 'a>
where
    F: Fn(&[u8], &mut [u8], &mut [u64; N]) + 'a,
{
    Box::new(OfOutput {
        books,
        call,
        output: vec![OLD_BYTE; room],
        entries: [OLD_ENTRY; N],
    })
}

/// A call on numbers alone that writes a book.
struct OfNumbers<F> {
    /// Rows and largest amounts.
    numbers: Vec<[usize; 2]>,
    call: F,
    output: Vec<u8>,
    entries: [u64; 5],
}

impl<F: Fn(usize, usize, &mut [u8], &mut [u64; 5])> Work for OfNumbers<F> {
    fn run(&mut self, at: usize) {
        let [rows, most] = black_box(self.numbers[at & (self.numbers.len() - 1)]);
        (self.call)(rows, most, &mut self.output, &mut self.entries);
        black_box((&mut self.entries, &mut self.output));
    }
    fn forget(&mut self) {
        self.entries = [OLD_ENTRY; 5];
        self.output.fill(OLD_BYTE);
    }
    fn answer(&self) -> Answer {
        Answer {
            entries: self.entries.to_vec(),
            output: self.output.clone(),
        }
    }
    fn path(&self) -> &'static str {
        type_name::<F>()
    }
}

/// A call on so many rows and each of some largest amounts, and an output that has room for the book.
pub fn of_numbers<'a, F>(rows: usize, amounts: &[usize], call: F) -> Box<dyn Work + 'a>
where
    F: Fn(usize, usize, &mut [u8], &mut [u64; 5]) + 'a,
{
    Box::new(OfNumbers {
        numbers: amounts.iter().map(|most| [rows, *most]).collect(),
        call,
        output: vec![OLD_BYTE; 8 + 16 * rows],
        entries: [OLD_ENTRY; 5],
    })
}
