//! The shortest file that shows a refusal, by hand: each number, each class and place, several
//! faults, and what is claimed of the file.

mod common;
use common::*;
use second::{check, shortest_file};

/// A book with three clean rows of a class and two of each other one, of which the row at a place of
/// the class is bad.
fn with_bad(class: usize, place: usize, bad: Bytes) -> Vec<u8> {
    let mut bodies = [0, 1, 2, 3].map(|class| vec![clean(class); 2]);
    bodies[class] = vec![clean(class); 3];
    bodies[class][place] = bad;
    book(bodies.each_ref().map(|body| &body[..]))
}

/// Every bad row that a class can have, with the number that it is refused with.
fn bad_rows(class: usize) -> Vec<(u64, Bytes)> {
    let all: [&[(u64, Bytes)]; 4] = [
        &[
            (4, row(32, 1, 100, 500, 10)),
            (5, row(1, 0, 100, 500, 10)),
            (5, row(1, 5, 100, 500, 10)),
            (6, row(1, 1, 36_001, 500, 10)),
            (7, row(1, 3, 100, 10_001, -10)),
            (8, sides(1, 1, 100, 500, 0, 0)),
            (8, sides(1, 1, 100, 500, 10, 10)),
            (9, row(1, 2, 100, 500, 1_000_000_001)),
            (15, row(1, 4, 361, 500, 10)),
            (15, row(1, 4, 90, 36_001, 10)),
            (15, row(1, 4, 90, 89, -10)),
        ],
        &[
            (4, row(255, 1, 0, 0, 10)),
            (5, row(2, 4, 90, 89, 10)),
            (6, row(2, 1, 1, 0, 10)),
            (7, row(2, 1, 0, 1, 10)),
            (8, sides(2, 1, 0, 0, 1, 2)),
            (9, row(2, 3, 0, 0, -4_000_000_000)),
        ],
        &[
            (4, row(32, 0, 0, 0, 10)),
            (5, row(3, 1, 0, 0, 10)),
            (6, row(3, 0, 1, 0, 10)),
            (7, row(3, 0, 0, 1, 10)),
            (8, sides(3, 0, 0, 0, 0, 0)),
            (9, row(3, 0, 0, 0, 1_000_000_001)),
        ],
        &[
            (4, row(32, 0, 400, 0, 10)),
            (5, row(4, 4, 90, 89, 10)),
            (6, row(4, 0, 36_001, 0, 10)),
            (7, row(4, 0, 400, 1, 10)),
            (8, sides(4, 0, 400, 0, 7, 7)),
            (9, row(4, 0, 400, 0, -1_000_000_001)),
        ],
    ];
    all[class].to_vec()
}

/// The contents of a book of one row of a class.
const ONE: [[u8; 8]; 4] = [
    [1, 0, 0, 0, 0, 0, 0, 0],
    [0, 0, 1, 0, 0, 0, 0, 0],
    [0, 0, 0, 0, 1, 0, 0, 0],
    [0, 0, 0, 0, 0, 0, 1, 0],
];

/// Catches a row that is put into another class, one of its neighbours, and changed bytes.
#[test]
fn a_bad_row_is_shown_alone_in_its_own_class() {
    for class in 0..4 {
        for (number, mut bad) in bad_rows(class) {
            bad[6..8].copy_from_slice(&[0xcd, 0xab]); // its issue number stays too
            for place in 0..3 {
                let whole = with_bad(class, place, bad);
                let refusal = check(&whole);
                let at = [0, 2, 4, 6][class] + place as u64;
                assert_eq!((refusal.number, refusal.row), (number, at));
                let expected = [&ONE[class][..], &bad].concat();
                assert_eq!(shortest_file(&whole), Some(expected));
            }
        }
    }
}

/// Catches the last bad row in the place of the first, and the one with the smallest number.
#[test]
fn of_several_bad_rows_the_first_is_shown() {
    let (late, early) = (
        sides(1, 1, 100, 500, 1_000_000_001, 0),
        row(32, 1, 0, 0, 10),
    );
    let two = interest(&[clean(0), late, early]);
    assert_eq!(check(&two).number, 9);
    let expected = [&ONE[0][..], &late].concat();
    assert_eq!(shortest_file(&two), Some(expected));
    // In two classes: the class that comes first in the file.
    let (share, stock) = (row(2, 1, 0, 9, 10), row(32, 0, 0, 0, 10));
    let two = book([&[clean(0)], &[clean(1), share], &[], &[stock]]);
    assert_eq!((check(&two).number, check(&two).row), (7, 2));
    let expected = [&ONE[1][..], &share].concat();
    assert_eq!(shortest_file(&two), Some(expected));
}

/// A row with every fault keeps all of them, and the first is told again.
#[test]
fn a_row_with_several_faults_stays_as_it_is() {
    for (number, bad) in [
        (4, [255; 16]),
        (5, sides(31, 9, 36_001, 10_001, 0, 0)),
        (6, sides(31, 3, 36_001, 10_001, 0, 0)),
        (7, sides(31, 3, 36_000, 10_001, 0, 0)),
        (8, sides(31, 3, 36_000, 10_000, u32::MAX, u32::MAX)),
        (15, sides(31, 4, 36_001, 36_001, 0, 0)),
    ] {
        let whole = interest(&[clean(0), bad, clean(0)]);
        assert_eq!(check(&whole).number, number);
        let expected = [&ONE[0][..], &bad].concat();
        assert_eq!(shortest_file(&whole), Some(expected));
    }
}

/// Row numbers past one byte, in books of 4,000 rows.
#[test]
fn full_books() {
    for (class, place, at) in [
        (0, 999, 999),
        (1, 0, 1_000),
        (2, 500, 2_500),
        (3, 999, 3_999),
    ] {
        let mut bodies = [0, 1, 2, 3].map(|class| vec![clean(class); 1_000]);
        bodies[class][place][0] = 32;
        let bad = bodies[class][place];
        let whole = book(bodies.each_ref().map(|body| &body[..]));
        assert_eq!((check(&whole).number, check(&whole).row), (4, at));
        let expected = [&ONE[class][..], &bad].concat();
        assert_eq!(shortest_file(&whole), Some(expected));
    }
    let most = interest(&vec![clean(0); 4_000]);
    assert_eq!(shortest_file(&most), None);
}

/// Files that are refused with every number, and one that is accepted.
fn of_all_numbers() -> Vec<Vec<u8>> {
    let mut files = vec![
        vec![],
        vec![9; 7],
        file([4_001, 0, 0, 0], &[]),
        vec![255; 100],
    ];
    files.extend([vec![0; 9], vec![0; 24], file([0, 0, 2, 0], &[clean(2)])]);
    for class in 0..4 {
        let bad = bad_rows(class).into_iter();
        files.extend(bad.map(|(_, bad)| with_bad(class, 1, bad)));
    }
    files
}

/// What is written is refused with the same number, row 0, is no longer than the book, and is its
/// own shortest file.
#[test]
fn what_is_written_shows_the_same_refusal() {
    for whole in of_all_numbers() {
        let number = check(&whole).number;
        let shown = shortest_file(&whole).unwrap();
        assert_eq!(check(&shown).entries(), [number, 0, 0]);
        assert_eq!(charge(&shown).refusal.entries(), [number, 0, 0]);
        assert!(shown.len() <= whole.len());
        assert_eq!(shortest_file(&shown), Some(shown));
    }
}

/// No file of fewer bytes has the number: its prefixes, and others of each shorter length with every
/// value of two of their bytes.
#[test]
fn nothing_shorter_shows_it() {
    for whole in of_all_numbers() {
        let (number, shown) = (check(&whole).number, shortest_file(&whole).unwrap());
        for length in 0..shown.len() {
            assert_ne!(check(&shown[..length]).number, number);
            assert_ne!(check(&whole[..length]).number, number);
        }
    }
    for length in 0..24 {
        for value in 0..=255 {
            for at in 0..length {
                let mut bytes = vec![0; length];
                (bytes[at], bytes[length - 1]) = (value, 255 - value);
                let number = check(&bytes).number;
                assert!(number <= 3, "{bytes:?}");
                assert!(length >= 8 || number == 1, "{bytes:?}");
            }
        }
    }
}
