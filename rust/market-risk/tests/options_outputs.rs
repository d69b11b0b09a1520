//! Option tables that are refused, over the linked library: every limit and one past it, the refusals in their
//! order, and every byte of the output.

use market_risk::{options_book, raw, Refusal};

/// An option: class, group, right, kind; amount; delta, gamma, vega, volatility, days.
type Fields = ([u8; 4], u32, [u16; 5]);

/// The bytes of a table.
fn table(options: &[Fields]) -> Vec<u8> {
    let mut bytes = (options.len() as u16).to_le_bytes().to_vec();
    for (sort, amount, short) in options {
        bytes.extend(sort);
        bytes.extend(amount.to_le_bytes());
        bytes.extend(short.iter().flat_map(|field| field.to_le_bytes()));
    }
    bytes
}

/// The amounts of a book's rows, long above zero and short below.
fn nets(book: &[u8]) -> Vec<i64> {
    let four = |bytes: &[u8]| i64::from(u32::from_le_bytes(bytes.try_into().unwrap()));
    let rows = book[8..].chunks_exact(16);
    rows.map(|row| four(&row[8..12]) - four(&row[12..]))
        .collect()
}

/// C.4 of the Amendment, 50 times: a sold call on a commodity.
const SOLD: Fields = ([4, 5, 2, 0], 25_000, [7_210, 170, 84, 2_000, 1_081]);

/// The refusal of a table with as much room as is ever needed.
fn refusal(bytes: &[u8]) -> Option<[u64; 3]> {
    let told = |no: Refusal| [no.number, no.row, no.book];
    options_book(bytes).err().map(told)
}

/// Catches a limit that is one off, and a field that is not looked at.
#[test]
fn limits_and_one_past_them() {
    let share: Fields = (
        [2, 31, 3, 3],
        1_000_000,
        [10_000, 65_535, 65_535, 65_535, 0],
    );
    let gold: Fields = ([3, 0, 0, 0], 1, [0; 5]);
    let stock: Fields = ([4, 31, 3, 0], 1, [0, 0, 0, 0, 36_000]);
    let good = [share, gold, stock];
    assert_eq!(refusal(&table(&good)), None);
    let bad: [(usize, usize, u32); 17] = [
        // Option, the first byte of the field, its value.
        (0, 0, 1),
        (0, 0, 5),
        (0, 1, 32),
        (0, 2, 4),
        (0, 3, 0),
        (0, 3, 4),
        (0, 4, 1_000_001),
        (0, 8, 10_001),
        (0, 16, 1),
        (1, 0, 0),
        (1, 3, 1),
        (1, 4, 0),
        (1, 16, 1),
        (2, 0, 255),
        (2, 1, 255),
        (2, 3, 1),
        (2, 16, 36_001),
    ];
    for (row, at, value) in bad {
        let (mut bytes, start) = (table(&good), 2 + 18 * row + at);
        let width = [1, 4, 2][usize::from(at >= 4) + usize::from(at >= 8)];
        bytes[start..start + width].copy_from_slice(&value.to_le_bytes()[..width]);
        assert_eq!(refusal(&bytes), Some([17, row as u64, 0]), "{row} {at}");
    }
}

/// The whole of a call into so many bytes.
fn called(table: &[u8], room: usize) -> ([u64; 17], Vec<u8>) {
    let (mut out, mut result) = (vec![0xa5; room], [u64::MAX; 17]);
    raw::options(table, &mut out, &mut result);
    (result, out)
}

/// The call must be refused so and leave the output as it was.
fn hold_refused(table: &[u8], room: usize, number: u64, row: u64) {
    let mut result = [0; 17];
    result[..2].copy_from_slice(&[number, row]);
    assert_eq!(called(table, room), (result, vec![0xa5; room]), "{room}");
}

/// In each class the rows stand as in the table, which may mix the classes; the output has the book at its
/// front and keeps all else, with room for it or without; 16 comes before 17, and 17 before 12.
#[test]
fn every_byte_of_the_output() {
    let of =
        |class: u8, group, kind, amount| ([class, group, 0, kind], amount, [10_000, 0, 0, 0, 0]);
    let mixed = [
        of(4, 9, 0, 1),
        of(2, 9, 3, 2),
        SOLD,
        of(3, 9, 0, 3),
        of(2, 8, 1, 4),
    ];
    let whole = table(&mixed);
    let (book, priced) = options_book(&whole).unwrap();
    assert_eq!(book[..8], [0, 0, 2, 0, 1, 0, 2, 0]);
    assert_eq!(nets(&book), [2, 4, 3, 1, -18_025]);
    let groups: Vec<u8> = book[8..].iter().step_by(16).copied().collect();
    assert_eq!(groups, [9, 8, 9, 9, 5]);
    let mut late = table(&mixed);
    late[2 + 4 * 18] = 1;
    for room in (0..100).chain([16_007, 16_008, 65_536]) {
        if room < book.len() {
            hold_refused(&whole, room, 12, 0);
        } else {
            let (result, out) = called(&whole, room);
            assert_eq!((result[0], result[3], result[16]), (0, 88, priced.total));
            let kept = vec![0xa5; room - book.len()];
            assert_eq!(out, [&book[..], &kept].concat(), "{room}");
        }
        hold_refused(&late, room, 17, 4);
        for short in [&late[..91], &late[..1], &[], &[&late[..], &[0]].concat()] {
            hold_refused(short, room, 16, 0);
        }
    }
}

/// 1,000 options are taken, with room for all of their rows, and 1,001 are not.
#[test]
fn a_thousand_options() {
    let full = table(&vec![SOLD; 1_000]);
    let (result, out) = called(&full, 16_008);
    assert_eq!(result[..4], [0, 0, 0, 16_008]);
    assert_eq!(result[6], 1_000 * 478_125_000);
    assert_eq!(result[9], 1_000 * 420_000_000);
    assert_eq!(result[16], 1_000 * 2_703_750_000);
    assert_eq!(nets(&out), [-18_025; 1_000]);
    assert_eq!(options_book(&full).map(|(book, _)| book), Ok(out));
    hold_refused(&full, 16_007, 12, 0);
    hold_refused(&table(&vec![SOLD; 1_001]), 65_536, 16, 0);
}

/// Catches sums that wrap: the largest of each field in every option.
#[test]
fn the_greatest_figures() {
    let most = (
        [4, 31, 3, 0],
        1_000_000,
        [10_000, 65_535, 65_535, 65_535, 0],
    );
    let (result, _) = called(&table(&vec![most; 1_000]), 16_008);
    assert_eq!(result[4..7], [0, 0, 7_372_687_500_000_000]);
    assert_eq!(result[7..10], [0, 0, 10_737_090_562_500_000]);
    // 15%, and 0.6% for each of six steps.
    assert_eq!(result[15..], [186_000_000_000_000; 2]);
}
