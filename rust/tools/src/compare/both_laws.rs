//! The claims about netting and then offsetting (document 02, P3) on one case, by the library's own
//! books: one call leaves what the two calls leave one after the other; that book is accepted, no
//! two of its rows fit, and given to the call once more it is the same.

use super::case::Case;
use super::offset_laws::fitting;
use crate::calls::Calls;
use books::{Book, ROW_BYTES};

/// A call that writes a book and tells the refusal's number and the length.
type Writing = fn(&dyn Calls, &[u8], &mut [u8]) -> [u64; 2];

fn net(calls: &dyn Calls, book: &[u8], out: &mut [u8]) -> [u64; 2] {
    let mut result = [0; 5];
    calls.net(book, out, &mut result);
    [result[0], result[3]]
}

fn offset(calls: &dyn Calls, book: &[u8], out: &mut [u8]) -> [u64; 2] {
    let mut result = [0; 4];
    calls.offset(book, out, &mut result);
    [result[0], result[3]]
}

fn both(calls: &dyn Calls, book: &[u8], out: &mut [u8]) -> [u64; 2] {
    let mut result = [0; 5];
    calls.net_and_offset(book, out, &mut result);
    [result[0], result[3]]
}

/// What a call leaves of a book, in an output of so many bytes, or the number of its refusal.
fn left(calls: &dyn Calls, call: Writing, book: &[u8], room: usize) -> Result<Vec<u8>, u64> {
    let mut out = vec![0; room];
    match call(calls, book, &mut out) {
        [0, length] => {
            out.truncate(length as usize);
            Ok(out)
        }
        [number, _] => Err(number),
    }
}

/// The same with room for a row more than the book has.
fn with_room(calls: &dyn Calls, call: Writing, book: &[u8]) -> Result<Vec<u8>, u64> {
    left(calls, call, book, book.len() + ROW_BYTES)
}

/// Whether the case has room for the netted and for the offset book: where one of these calls is
/// wrong by itself, that is told of it and not of both.
fn told_apart(calls: &dyn Calls, case: &Case) -> bool {
    left(calls, net, &case.a, case.net_room) != Err(12)
        && left(calls, offset, &case.a, case.offset_room) != Err(12)
}

/// The two calls one after the other, where they leave something else.
fn one_after_the_other(
    calls: &dyn Calls,
    case: &Case,
    once: &Result<Vec<u8>, u64>,
) -> Option<String> {
    let netted = with_room(calls, net, &case.a);
    let in_turn = netted.and_then(|netted| with_room(calls, offset, &netted));
    if in_turn == *once {
        return None;
    }
    let told = |left: &Result<Vec<u8>, u64>| match left {
        Ok(book) => format!("{} bytes", book.len()),
        Err(number) => format!("refusal {number}"),
    };
    let [once, in_turn] = [once, &in_turn].map(told);
    Some(format!(
        "one call gives {once}, the two in turn {in_turn}, and they differ"
    ))
}

/// What of the book that is left is broken: it is accepted, no two of its rows fit, and the call
/// changes nothing of it.
fn stays(calls: &dyn Calls, once: &[u8]) -> Option<String> {
    let mut check = [0; 3];
    calls.check(once, &mut check);
    if check[0] != 0 {
        return Some(format!("the written book is refused with {}", check[0]));
    }
    let changes = || with_room(calls, both, once).as_deref() != Ok(once);
    fitting(&Book::decode(once)?)
        .or_else(|| changes().then(|| "given once more, the written book changes".into()))
}

/// What of them a case breaks, in words.
pub fn broken(calls: &dyn Calls, case: &Case) -> Option<String> {
    let once = with_room(calls, both, &case.a);
    let told = match told_apart(calls, case) {
        true => one_after_the_other(calls, case, &once),
        false => None,
    };
    let told = told.or_else(|| stays(calls, once.as_ref().ok()?))?;
    Some(format!("netting and offsetting: {told}"))
}
