//! The claims about the dearest book (document 02, P14) on one case, by the library's own figures: it is
//! accepted, has as many rows as are asked for, each of at most so much, and costs the total that is told
//! of it; and no accepted book of as many rows of at most as much costs more, neither the first book of
//! the case nor one that is made to be dear.

use super::asked::Asked;
use super::case::Case;
use crate::calls::Calls;
use books::{dear, Book, Random};

/// What a book costs under document 01's table, or the number that it is refused with.
fn cost(calls: &dyn Calls, bytes: &[u8]) -> Result<u64, u64> {
    let (mut table, mut out) = ([0; 36], [0; 75]);
    calls.table(&mut table);
    calls.charge(bytes, &table, &mut out);
    match out[0] {
        0 => Ok(out[9]),
        number => Err(number),
    }
}

/// The largest amount of a book.
fn largest(book: &Book) -> usize {
    let rows = book.classes.iter().flatten();
    let amounts = rows.map(|row| row.long.max(row.short) as usize);
    amounts.max().unwrap_or(0)
}

/// How many rows a file has and their largest amount, where it has rows.
pub fn limits(bytes: &[u8]) -> Option<(usize, usize)> {
    let book = Book::decode(bytes).filter(|book| book.rows() > 0)?;
    Some((book.rows(), largest(&book)))
}

/// A book that is made to be dear, of as many rows of at most as much as a case asks for.
pub fn dear(case: &Case) -> Option<Vec<u8>> {
    let Asked { rows, most, .. } = case.dearest;
    let mut random = Random::new(!case.order);
    let book = || dear::book(&mut random, rows, most as u32).encode();
    case.dearest.taken().then(book).flatten()
}

/// The book and the total that the call gives with room for it, or what is wrong with the answer.
fn written(calls: &dyn Calls, asked: &Asked) -> Result<Option<(Vec<u8>, u64)>, String> {
    let (mut out, mut result) = (vec![0; asked.length()], [0; 5]);
    calls.dearest(asked.rows, asked.most, &mut out, &mut result);
    let [number, _, _, length, total] = result;
    let Asked { rows, most, .. } = asked;
    match (asked.taken(), number) {
        (true, 0) => {
            let book = out.get(..length as usize).map(<[u8]>::to_vec);
            let book = book.ok_or_else(|| format!("{rows} rows have {length} bytes"))?;
            Ok(Some((book, total)))
        }
        (false, 22) => Ok(None),
        (true, number) => Err(format!(
            "with room for them, {rows} rows of {most} give {number}"
        )),
        (false, number) => Err(format!("{rows} rows of {most} give {number}, not 22")),
    }
}

/// What of them the written book breaks.
fn of_book(calls: &dyn Calls, asked: &Asked, bytes: &[u8], total: u64) -> Option<String> {
    let mut check = [0; 3];
    calls.check(bytes, &mut check);
    if check[0] != 0 {
        return Some(format!("the book is refused with {}", check[0]));
    }
    let book = Book::decode(bytes).unwrap_or_default();
    let (rows, most) = (book.rows(), largest(&book));
    if rows != asked.rows {
        return Some(format!("the book of {} rows has {rows}", asked.rows));
    }
    if most > asked.most {
        return Some(format!(
            "in the book of at most {} stands {most}",
            asked.most
        ));
    }
    match cost(calls, bytes) {
        Ok(cost) if cost == total => None,
        Ok(cost) => Some(format!("the book costs {cost}, and {total} is told")),
        Err(number) => Some(format!("the charge refuses the book with {number}")),
    }
}

/// What of them another book breaks: where it is accepted, it costs more than the dearest of as many rows
/// of at most as much.
fn dearer(calls: &dyn Calls, bytes: &[u8]) -> Option<String> {
    let (rows, most) = limits(bytes)?;
    let (cost, room) = (cost(calls, bytes).ok()?, 0);
    let told = match written(calls, &Asked { rows, most, room }) {
        Ok(written) => written.map_or(0, |(_, total)| total),
        Err(why) => return Some(why),
    };
    (cost > told).then(|| format!("{rows} rows of at most {most} cost {cost}, more than {told}"))
}

/// What of them a case breaks, in words.
pub fn broken(calls: &dyn Calls, case: &Case) -> Option<String> {
    let own = match written(calls, &case.dearest) {
        Ok(None) => None,
        Ok(Some((book, total))) => of_book(calls, &case.dearest, &book, total),
        Err(why) => Some(why),
    };
    let told = own
        .or_else(|| dearer(calls, &case.a))
        .or_else(|| dearer(calls, &dear(case)?));
    Some(format!("dearest: {}", told?))
}
