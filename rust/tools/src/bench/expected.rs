//! What a call must answer on each book of a case, found apart from the work that is timed.

use super::cases::Case;
use super::least_trade::Trade;
use super::work::{Answer, GROUPS, OLD_BYTE};
use std::rc::Rc;

/// The answers of a call on a book, with each group at least once.
pub fn expected<F, const N: usize>(case: &Case, call: F) -> Rc<[Answer]>
where
    F: Fn(&[u8], usize, &mut [u64; N]),
{
    let answer = |at: usize| {
        let mut entries = [0; N];
        let book = &case.books[at % case.books.len()];
        call(book, at % GROUPS, &mut entries);
        Answer {
            entries: entries.to_vec(),
            output: Vec::new(),
        }
    };
    (0..case.books.len().max(GROUPS)).map(answer).collect()
}

/// The answers of a call on a pair of books, with an output that holds what it held before.
pub fn expected_of_pairs<F>(case: &Case, call: F) -> Rc<[Answer]>
where
    F: Fn(&[u8], &[u8], &mut [u8], &mut [u64; 4]),
{
    let answer = |(a, b): (&Vec<u8>, &Vec<u8>)| {
        let mut entries = [0; 4];
        let mut output = vec![OLD_BYTE; a.len() + b.len() - 8];
        call(a, b, &mut output, &mut entries);
        Answer {
            entries: entries.to_vec(),
            output,
        }
    };
    case.pairs[0]
        .iter()
        .zip(&case.pairs[1])
        .map(answer)
        .collect()
}

/// The answers of a call on a book that writes another, with an output as long as the book that
/// holds what it held before.
pub fn expected_of_outputs<F, const N: usize>(case: &Case, call: F) -> Rc<[Answer]>
where
    F: Fn(&[u8], &mut [u8], &mut [u64; N]),
{
    expected_in_room(case, case.books[0].len(), call)
}

/// The same with an output of so many bytes.
pub fn expected_in_room<F, const N: usize>(case: &Case, room: usize, call: F) -> Rc<[Answer]>
where
    F: Fn(&[u8], &mut [u8], &mut [u64; N]),
{
    let answer = |book: &Vec<u8>| {
        let mut entries = [0; N];
        let mut output = vec![OLD_BYTE; room];
        call(book, &mut output, &mut entries);
        Answer {
            entries: entries.to_vec(),
            output,
        }
    };
    case.books.iter().map(answer).collect()
}

/// The answers of a call on so many rows and each of some largest amounts, with an output as long as the
/// book that holds what it held before.
pub fn expected_of_numbers<F>(rows: usize, amounts: &[usize], call: F) -> Rc<[Answer]>
where
    F: Fn(usize, usize, &mut [u8], &mut [u64; 5]),
{
    let answer = |most: &usize| {
        let mut entries = [0; 5];
        let mut output = vec![OLD_BYTE; 8 + 16 * rows];
        call(rows, *most, &mut output, &mut entries);
        Answer {
            entries: entries.to_vec(),
            output,
        }
    };
    amounts.iter().map(answer).collect()
}

/// The answers of a call on each book and what is asked of it.
pub fn expected_of_trades<F>(case: &Case, trades: &[Trade], call: F) -> Rc<[Answer]>
where
    F: Fn(&[u8], Trade, &mut [u64; 5]),
{
    let answer = |(book, trade): (&Vec<u8>, &Trade)| {
        let mut entries = [0; 5];
        call(book, *trade, &mut entries);
        Answer {
            entries: entries.to_vec(),
            output: Vec::new(),
        }
    };
    case.books.iter().zip(trades).map(answer).collect()
}
