//! The shortest file that shows a refusal, over the linked library: every number, class and place by
//! hand, what is claimed of the file, and every byte of the output.

use market_risk::{charge, check, raw, shortest, shortest_file, Shortest, Table};

/// A row that its class accepts.
const CLEAN: [[u8; 16]; 4] = [
    [1, 1, 100, 0, 0x20, 3, 0, 0, 10, 0, 0, 0, 0, 0, 0, 0],
    [2, 2, 0, 0, 0, 0, 0, 0, 0, 0, 0, 0, 20, 0, 0, 0],
    [3, 0, 0, 0, 0, 0, 0, 0, 30, 0, 0, 0, 0, 0, 0, 0],
    [4, 0, 0x90, 1, 0, 0, 0, 0, 0, 0, 0, 0, 40, 0, 0, 0],
];

/// The row with some bytes changed, from a place on.
fn with(mut row: [u8; 16], at: usize, bytes: &[u8]) -> [u8; 16] {
    row[at..at + bytes.len()].copy_from_slice(bytes);
    row
}

/// A book of four bodies.
fn book(bodies: [&[[u8; 16]]; 4]) -> Vec<u8> {
    let counts = bodies.map(|body| (body.len() as u16).to_le_bytes());
    [counts.concat(), bodies.concat().concat()].concat()
}

/// A book of one row of a class.
fn only(class: usize, row: [u8; 16]) -> Vec<u8> {
    let rows = [row];
    let mut bodies: [&[[u8; 16]]; 4] = [&[]; 4];
    bodies[class] = &rows;
    book(bodies)
}

/// Bad rows of a class with their numbers.
fn bad_rows(class: usize) -> Vec<(u64, [u8; 16])> {
    let row = CLEAN[class];
    let over = 1_000_000_001u32.to_le_bytes();
    let side = if row[8] > 0 { 8 } else { 12 };
    let mut rows = vec![
        (4, with(row, 0, &[32])),
        (5, with(row, 1, &[5])),
        (6, with(row, 2, &36_001u16.to_le_bytes())),
        (7, with(row, 4, &10_001u16.to_le_bytes())),
        (8, with(row, 8, &[0; 8])),
        (8, with(row, 8, &[1; 8])),
        (9, with(row, side, &over)),
    ];
    match class {
        // Notes: 361 days to fixing; 36,001 (0x8ca1) to final maturity; 89 to it and 90 to fixing.
        0 => rows.extend([
            (15, with(row, 1, &[4, 0x69, 1, 0x69, 1])),
            (15, with(row, 1, &[4, 90, 0, 0xa1, 0x8c])),
            (15, with(row, 1, &[4, 90, 0, 89, 0])),
        ]),
        1 | 2 => rows.push((6, with(row, 2, &[1]))),
        _ => rows.push((7, with(row, 4, &[1]))),
    }
    rows
}

/// Books with a bad row at a place of three of its class, between two rows of each other class.
fn with_bad(class: usize, place: usize, bad: [u8; 16]) -> Vec<u8> {
    let mut bodies = [0, 1, 2, 3].map(|class| vec![CLEAN[class]; 2]);
    bodies[class] = vec![CLEAN[class]; 3];
    bodies[class][place] = bad;
    book(bodies.each_ref().map(|body| &body[..]))
}

/// What is shown of a book, which is held to what is claimed of it: the same number in row 0, of the
/// charge under two tables too, no more bytes than the book, and the same once more.
fn shown(whole: &[u8]) -> Vec<u8> {
    let number = check(whole).unwrap_err().number;
    let shown = shortest_file(whole).unwrap();
    let refusal = check(&shown).unwrap_err();
    assert_eq!([refusal.number, refusal.row, refusal.book], [number, 0, 0]);
    for table in [Table::amendment(), Table::new(&[0; 36]).unwrap()] {
        assert_eq!(charge(&shown, &table), Err(refusal));
    }
    assert!(shown.len() <= whole.len());
    assert_eq!(shortest_file(&shown).as_ref(), Some(&shown));
    shown
}

/// Catches a row of another class or place, and changed bytes.
#[test]
fn each_number_in_each_class_and_place() {
    for class in 0..4 {
        for (number, bad) in bad_rows(class) {
            let bad = with(bad, 6, &[0xcd, 0xab]);
            for place in 0..3 {
                let whole = with_bad(class, place, bad);
                let refusal = check(&whole).unwrap_err();
                let row = (2 * class + place) as u64;
                assert_eq!((refusal.number, refusal.row), (number, row));
                assert_eq!(shown(&whole), only(class, bad));
            }
        }
    }
}

/// The first bad row counts, and the first of its faults; the others stay in it.
#[test]
fn several_faults() {
    let [nine, four] = [bad_rows(3)[6].1, bad_rows(3)[0].1];
    let bodies: [&[[u8; 16]]; 4] = [&[CLEAN[0]], &[], &[], &[nine, four]];
    assert_eq!(shown(&book(bodies)), only(3, nine));
    let early = bad_rows(1)[4].1;
    let bodies: [&[[u8; 16]]; 4] = [&[CLEAN[0]], &[early], &[], &[four]];
    assert_eq!(shown(&book(bodies)), only(1, early));
    let all = [255; 16];
    let bodies: [&[[u8; 16]]; 4] = [&[CLEAN[0], all], &[all], &[all], &[all]];
    assert_eq!(shown(&book(bodies)), only(0, all));
}

/// Contents: too many rows, lengths that are not those of the counts, and none counted at all.
#[test]
fn contents_are_shown_alone() {
    let counts = |counts: [u16; 4]| counts.map(u16::to_le_bytes).concat();
    let most = [[4_001, 0, 0, 0], [1, 0, 0, 4_000], [65_535; 4]];
    let some = [[1, 0, 0, 0], [0, 0, 0, 1], [0, 256, 0, 0], [1_000; 4]];
    for head in most.iter().chain(&some).map(|head| counts(*head)) {
        for more in [0, 1, 17, 64_016] {
            let whole = [&head[..], &vec![7; more]].concat();
            assert_eq!(shown(&whole), head);
        }
    }
    for more in [1, 15, 16, 17, 1_000] {
        let whole = vec![0; 8 + more];
        assert_eq!(shown(&whole), [1, 0, 0, 0, 0, 0, 0, 0]);
    }
    for length in 0..8 {
        assert_eq!(shown(&vec![255; length]), []);
    }
}

/// Rows far into a book, and a full one that is accepted.
#[test]
fn full_books() {
    for (class, place) in [(0, 256), (1, 0), (2, 999), (3, 999)] {
        let mut bodies = CLEAN.map(|row| vec![row; 1_000]);
        bodies[class][place][0] = 32;
        let bad = bodies[class][place];
        let whole = book(bodies.each_ref().map(|body| &body[..]));
        assert_eq!(shown(&whole), only(class, bad));
    }
    assert_eq!(
        shortest_file(&book([&[CLEAN[0]; 4_000], &[], &[], &[]])),
        None
    );
}

/// No file that is shorter has the number: prefixes, zeros, and other bytes.
#[test]
fn nothing_shorter_shows_it() {
    let number = |bytes: &[u8]| check(bytes).map_or_else(|refusal| refusal.number, |_| 0);
    for class in 0..4 {
        for (own, bad) in bad_rows(class) {
            let file = only(class, bad);
            assert!((0..24).all(|length| number(&file[..length]) != own));
        }
    }
    for (length, byte) in (0..24).flat_map(|length| (0..=255).map(move |byte| (length, byte))) {
        let number = number(&vec![byte; length]);
        assert!(number <= 3 && (length >= 8 || number == 1), "{length}");
    }
}

/// The output has the file at its front and keeps all else, with room for it or without; nothing is
/// written of an accepted book or for 1, and no output is too short for it.
#[test]
fn every_byte_of_the_output() {
    let (row, bad) = (CLEAN[2], bad_rows(2)[0].1);
    let cases = [
        (vec![0; 8], vec![], 1),
        (only(2, row), vec![], 1),
        (vec![], vec![], 0),
        (vec![9; 7], vec![], 0),
        (vec![255; 40], vec![255; 8], 0),
        (vec![0; 40], vec![1, 0, 0, 0, 0, 0, 0, 0], 0),
        (with_bad(2, 1, bad), only(2, bad), 0),
    ];
    for (whole, file, mark) in cases {
        for room in 0..40 {
            let (mut out, mut result) = (vec![0xa5; room], [u64::MAX; 5]);
            raw::shortest(&whole, &mut out, &mut result);
            let kept = vec![0xa5; room.saturating_sub(file.len())];
            let (expected, left) = match room < file.len() {
                true => ([12, 0, 0, 0, 0], vec![0xa5; room]),
                false => (
                    [0, 0, 0, file.len() as u64, mark],
                    [&file[..], &kept].concat(),
                ),
            };
            assert_eq!((result, out), (expected, left), "{room}");
        }
    }
}

/// Catches an accepted book that is told as a refused one, and 12 that is told as either.
#[test]
fn an_accepted_book_is_told_from_one_refused_with_1() {
    assert_eq!(shortest(&[0; 8], &mut []), Ok(Shortest::Accepted));
    assert_eq!(
        shortest(&[0; 7], &mut []),
        Ok(Shortest::Refused { length: 0 })
    );
    assert_eq!(
        shortest(&[0; 9], &mut [0; 8]),
        Ok(Shortest::Refused { length: 8 })
    );
    assert_eq!(shortest(&[0; 9], &mut [0; 7]).unwrap_err().number, 12);
}
