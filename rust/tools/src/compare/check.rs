//! All fifteen calls on one case, entry by entry and byte by byte.

use super::asked::Asked;
use super::case::Case;
use super::trade;
use crate::calls::Calls;

/// What stands in a result before a call, which no figure equals.
pub const MARK: u64 = 0xa5a5_a5a5_a5a5_a5a5;

/// The bytes before and after an output that must keep their values.
const GUARD: usize = 32;

/// The classes, and numbers that are none: beside them, and theirs by the low byte or all others.
pub const NUMBERS: [usize; 9] = [0, 1, 2, 3, 4, 5, 257, 1 << 32 | 2, usize::MAX];

/// The entries in which two results differ, if they do, with both figures.
pub fn unequal(one: &[u64], other: &[u64]) -> Option<String> {
    let pairs = one.iter().zip(other).enumerate();
    let differ = pairs.filter(|(_, (one, other))| one != other);
    let told: Vec<String> = differ
        .map(|(at, (one, other))| format!("entry {at} is {one} and {other}"))
        .collect();
    (!told.is_empty()).then(|| told.join(", "))
}

/// The same of a call by two calculations.
fn unequal_by(call: &str, names: [&str; 2], one: &[u64], other: &[u64]) -> Option<String> {
    let [first, second] = names;
    let entries = unequal(one, other)?;
    Some(format!("{call} by {first} and by {second}: {entries}"))
}

/// Runs one call of both calculations and compares what they write.
pub fn both<const N: usize>(
    call: &str,
    calculations: [&dyn Calls; 2],
    run: impl Fn(&dyn Calls, &mut [u64; N]),
) -> Option<String> {
    let [library, other] = calculations.map(|calculation| {
        let mut out = [MARK; N];
        run(calculation, &mut out);
        out
    });
    let names = calculations.map(|calculation| calculation.name());
    unequal_by(call, names, &library, &other)
}

/// An output of so many bytes, between guards, and the result of a call that writes to it.
fn output<const N: usize>(
    room: usize,
    run: impl Fn(&mut [u8], &mut [u64; N]),
) -> (Vec<u8>, [u64; N]) {
    let pattern = |at: usize| (at * 7 + 0xa5) as u8;
    let mut bytes: Vec<u8> = (0..room + 2 * GUARD).map(pattern).collect();
    let mut result = [MARK; N];
    run(&mut bytes[GUARD..GUARD + room], &mut result);
    (bytes, result)
}

/// Writes with both calculations and compares all results and all bytes.
fn writing<const N: usize>(
    call: &str,
    calculations: [&dyn Calls; 2],
    room: usize,
    run: impl Fn(&dyn Calls, &mut [u8], &mut [u64; N]),
) -> Option<String> {
    let [(ours, result), (theirs, expected)] =
        calculations.map(|calculation| output(room, |out, result| run(calculation, out, result)));
    let names = calculations.map(|calculation| calculation.name());
    unequal_by(call, names, &result, &expected).or_else(|| {
        let at = ours.iter().zip(&theirs).position(|(one, two)| one != two)?;
        let place = at as i64 - GUARD as i64;
        let ([one, two], byte, expected) = (names, ours[at], theirs[at]);
        Some(format!(
            "{call}: output byte {place} is {byte} by {one} and {expected} by {two}"
        ))
    })
}

/// Joins with both calculations.
fn join(calculations: [&dyn Calls; 2], case: &Case) -> Option<String> {
    writing("join", calculations, case.room, |calls, out, result| {
        calls.join(&case.a, &case.b, out, result);
    })
}

/// Nets the first book with both calculations.
fn net(calculations: [&dyn Calls; 2], case: &Case) -> Option<String> {
    writing("net", calculations, case.net_room, |calls, out, result| {
        calls.net(&case.a, out, result);
    })
}

/// Offsets the first book with both calculations.
fn offset(calculations: [&dyn Calls; 2], case: &Case) -> Option<String> {
    let room = case.offset_room;
    writing("offset", calculations, room, |calls, out, result| {
        calls.offset(&case.a, out, result);
    })
}

/// Nets and offsets the first book with both calculations.
fn net_and_offset(calculations: [&dyn Calls; 2], case: &Case) -> Option<String> {
    let room = case.both_room;
    writing(
        "net and offset",
        calculations,
        room,
        |calls, out, result| {
            calls.net_and_offset(&case.a, out, result);
        },
    )
}

/// Shows the refusal of the first book with both calculations.
fn shortest(calculations: [&dyn Calls; 2], case: &Case) -> Option<String> {
    let room = case.shortest_room;
    writing("shortest", calculations, room, |calls, out, result| {
        calls.shortest(&case.a, out, result);
    })
}

/// Writes the dearest book with both calculations.
fn dearest(calculations: [&dyn Calls; 2], case: &Case) -> Option<String> {
    let Asked { rows, most, room } = case.dearest;
    writing("dearest", calculations, room, |calls, out, result| {
        calls.dearest(rows, most, out, result);
    })
}

/// Writes the book of the first option table with both calculations.
fn options(calculations: [&dyn Calls; 2], case: &Case) -> Option<String> {
    let (table, room) = (&case.options.a, case.options.room);
    writing("options", calculations, room, |calls, out, result| {
        calls.options(table, out, result);
    })
}

/// Compares document 01's table by both calculations.
fn table(library: &dyn Calls, other: &dyn Calls) -> Option<String> {
    let (mut ours, mut theirs) = ([0x5a; 36], [0xa5; 36]);
    library.table(&mut ours);
    other.table(&mut theirs);
    let at = ours.iter().zip(&theirs).position(|(one, two)| one != two)?;
    let ([one, two], byte, expected) = ([library.name(), other.name()], ours[at], theirs[at]);
    Some(format!(
        "table: byte {at} is {byte} by {one} and {expected} by {two}"
    ))
}

/// Hands out each class of the first book with both calculations, and numbers that are no class.
fn parts(calculations: [&dyn Calls; 2], case: &Case) -> Option<String> {
    NUMBERS.iter().find_map(|class| {
        let told = both("part", calculations, |calls, out| {
            calls.part(&case.a, *class, out);
        })?;
        Some(format!("{told}, of class {class}"))
    })
}

/// The first difference of the calls on the first book, in words.
fn of_book(calculations: [&dyn Calls; 2], case: &Case) -> Option<String> {
    let (book, table, group) = (&case.a, &case.table, case.group);
    let check = || both("check", calculations, |calls, out| calls.check(book, out));
    let charge = || {
        both("charge", calculations, |calls, out| {
            calls.charge(book, table, out)
        })
    };
    let interest = || {
        both("interest ladder", calculations, |calls, out| {
            calls.interest_ladder(book, table, group, out);
        })
    };
    let commodity = || {
        both("commodity ladder", calculations, |calls, out| {
            calls.commodity_ladder(book, group, out);
        })
    };
    let small_bank = || {
        both("small bank", calculations, |calls, out| {
            calls.small_bank(book, out);
        })
    };
    let ladders = || interest().or_else(commodity);
    check().or_else(charge).or_else(ladders).or_else(small_bank)
}

/// The first difference of a case, in words.
pub fn difference(library: &dyn Calls, other: &dyn Calls, case: &Case) -> Option<String> {
    let both = [library, other];
    of_book(both, case)
        .or_else(|| parts(both, case))
        .or_else(|| join(both, case))
        .or_else(|| net(both, case))
        .or_else(|| offset(both, case))
        .or_else(|| net_and_offset(both, case))
        .or_else(|| shortest(both, case))
        .or_else(|| dearest(both, case))
        .or_else(|| options(both, case))
        .or_else(|| trade::difference(both, case))
        .or_else(|| table(library, other))
}
