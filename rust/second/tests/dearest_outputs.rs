//! The dearest book, by hand: 22 before 12, and every byte of the output.

mod common;
use common::*;
use second::{dearest, dearest_book};

/// The greatest amount.
const MOST: u64 = 1_000_000_000;

/// The entries of a call into so many bytes, each 0xa5 before, and these bytes.
fn called(rows: u64, most: u64, room: usize) -> ([u64; 5], Vec<u8>) {
    let mut out = vec![0xa5; room];
    let entries = dearest(rows, most, &mut out).entries();
    (entries, out)
}

/// A refusal leaves every byte as it was, and no figure.
fn refused(number: u64, rows: u64, most: u64, room: usize) {
    let expected = ([number, 0, 0, 0, 0], vec![0xa5; room]);
    assert_eq!(called(rows, most, room), expected, "{rows} {most} {room}");
}

/// The book of rows of an amount is written, and the bytes past it are kept.
fn written(rows: u64, most: u64, room: usize) {
    let (entries, out) = called(rows, most, room);
    let row = sides(0, 3, 36_000, 0, most as u32, 0);
    let book = interest(&vec![row; rows as usize]);
    let total = 205_000 * rows * most;
    assert_eq!(entries, [0, 0, 0, book.len() as u64, total]);
    let kept = vec![0xa5; room - book.len()];
    assert_eq!(out, [book, kept].concat(), "{rows} {most} {room}");
}

/// Catches an output that is one byte too short or long, at each length that matters.
#[test]
fn outputs_of_few_bytes() {
    for room in [0, 7] {
        refused(12, 0, 1, room);
        refused(12, 1, MOST, room);
    }
    for room in [8, 23] {
        written(0, MOST, room);
        refused(12, 1, MOST, room);
    }
    for room in [24, 25, 39] {
        written(0, 7, room);
        written(1, 7, room);
        refused(12, 2, 7, room);
    }
    for room in [40, 41, 56] {
        written(2, 256, room);
    }
}

#[test]
fn outputs_of_4000_rows() {
    for (rows, length) in [(3_999, 63_992), (4_000, 64_008)] {
        for room in [length, length + 1, 65_536] {
            written(rows, MOST, room);
        }
        refused(12, rows, MOST, length - 1);
        refused(12, rows, 1, 0);
    }
    refused(12, 4_000, MOST, 63_992);
}

/// 22 comes before 12, with room or without, for either reason and for both.
#[test]
fn a_refused_number_comes_before_the_output() {
    for room in [0, 7, 8, 23, 24, 25, 64_007, 64_008, 64_024, 65_536] {
        for rows in [4_001, 1 << 32, u64::MAX] {
            refused(22, rows, 1, room);
            refused(22, rows, 0, room);
        }
        for most in [0, MOST + 1, 1 << 32, u64::MAX] {
            refused(22, 0, most, room);
            refused(22, 1, most, room);
            refused(22, 4_000, most, room);
            refused(22, 4_001, most, room);
        }
    }
}

/// The book is the same whatever the room.
#[test]
fn what_is_written_is_the_book() {
    let (_, out) = called(5, 12, 88);
    assert_eq!(dearest_book(5, 12), Ok(out));
}
