//! The output of options: 12 last, and every byte.

mod common;
use common::exchange;
use common::options::*;

/// An output that is too short is refused last, with nothing written.
fn short(table: &[u8], room: usize) {
    let mut entries = [0; 17];
    entries[0] = 12;
    assert_eq!(called(table, room), (entries, vec![0xa5; room]), "{room}");
}

/// The book goes to the front of the output, and the bytes past it are kept.
fn fits(table: &[u8], book: &[u8], room: usize) {
    let (entries, out) = called(table, room);
    assert_eq!(entries[..4], [0, 0, 0, book.len() as u64], "{room}");
    assert_eq!(out, [book, &vec![0xa5; room - book.len()]].concat());
    let (enough, _) = called(table, book.len());
    assert_eq!(entries, enough);
}

/// The length is that of the rows that are written: options with a delta of 0 have none.
#[test]
fn outputs_of_few_bytes() {
    let one = plain(3).right(SOLD_CALL).vega(1, 1).gamma(100, 1);
    let none = one.delta(100, 0);
    let tables = [
        (vec![], exchange(&[])),
        (vec![none], exchange(&[])),
        (vec![one], exchange(&[(3, -50)])),
        (vec![none, one, none], exchange(&[(3, -50)])),
        (vec![one, none, one], exchange(&[(3, -50), (3, -50)])),
    ];
    for (of, book) in tables {
        let table = option_table(&of);
        for room in [0, 7, 8, 9, 23, 24, 25, 39, 40, 41, 56, 16_008] {
            match room < book.len() {
                true => short(&table, room),
                false => fits(&table, &book, room),
            }
        }
    }
}

#[test]
fn outputs_of_a_thousand_rows() {
    let table = option_table(&vec![plain(3); 1_000]);
    let book = exchange(&vec![(3, 50); 1_000]);
    for room in [0, 8, 15_992, 16_007] {
        short(&table, room);
    }
    for room in [16_008, 16_009, 65_536] {
        fits(&table, &book, room);
    }
}
