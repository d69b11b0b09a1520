//! The shortest file that shows a refusal, by hand: books whose contents are refused, accepted ones,
//! and every byte of the output.

mod common;
use common::*;
use second::{check, shortest, shortest_file};

/// Outputs of these lengths.
const ROOMS: [usize; 8] = [0, 7, 8, 9, 23, 24, 25, 100];

/// The entries of a call into so many bytes, each 0xa5 before, and these bytes.
fn called(book: &[u8], room: usize) -> ([u64; 5], Vec<u8>) {
    let mut out = vec![0xa5; room];
    let entries = shortest(book, &mut out).entries();
    (entries, out)
}

/// Nothing is written, whatever the room, and the mark is as it is said.
fn nothing(book: &[u8], mark: u64) {
    for room in ROOMS {
        let expected = ([0, 0, 0, 0, mark], vec![0xa5; room]);
        assert_eq!(called(book, room), expected, "{room}");
    }
}

/// These bytes are written where there is room for them, and 12 is told where there is not.
fn written(book: &[u8], shown: &[u8]) {
    for room in ROOMS {
        let (entries, out) = called(book, room);
        if room < shown.len() {
            assert_eq!(entries, [12, 0, 0, 0, 0], "{room}");
            assert_eq!(out, vec![0xa5; room]);
        } else {
            assert_eq!(entries, [0, 0, 0, shown.len() as u64, 0], "{room}");
            let rest = vec![0xa5; room - shown.len()];
            assert_eq!(out, [shown, &rest].concat());
        }
    }
    assert_eq!(shortest_file(book).as_deref(), Some(shown));
}

/// Catches an accepted book that is refused, or told as one refused with 1.
#[test]
fn an_accepted_book_has_a_mark_of_its_own() {
    let rows = [0, 1, 2, 3].map(|class| [clean(class)]);
    let books = [
        vec![0; 8],
        book(rows.each_ref().map(|body| &body[..])),
        commodity(&[(0, 1), (36_000, -1_000_000_000)]),
        interest(&vec![clean(0); 4_000]),
    ];
    for accepted in books {
        assert!(check(&accepted).accepted());
        assert_eq!(shortest_file(&accepted), None);
        nothing(&accepted, 1);
    }
}

/// For 1 nothing is written, and no output is too short for it.
#[test]
fn fewer_than_eight_bytes_give_none() {
    for length in 0..8 {
        for byte in [0, 1, 255] {
            nothing(&vec![byte; length], 0);
            assert_eq!(shortest_file(&vec![byte; length]), Some(vec![]));
        }
    }
}

/// For 2 the contents alone, as they are, whatever follows them.
#[test]
fn too_many_rows_give_the_contents() {
    for counts in [
        [4_001, 0, 0, 0],
        [0, 4_001, 0, 0],
        [0, 0, 4_001, 0],
        [0, 0, 0, 4_001],
        [4_000, 0, 0, 1],
        [1_000, 1_000, 1_000, 1_001],
        [0x0102, 0x0304, 0x0506, 0x0708],
        [65_535; 4],
    ] {
        let contents = file(counts, &[]);
        for more in [0, 1, 16, 17, 64_016] {
            let whole = [&contents[..], &vec![7; more]].concat();
            assert_eq!(check(&whole).number, 2);
            written(&whole, &contents);
        }
    }
}

/// For 3 the contents as they are where they count a row.
#[test]
fn a_wrong_length_gives_the_contents() {
    for (counts, right) in [
        ([1, 0, 0, 0], 16),
        ([0, 1, 0, 0], 16),
        ([0, 0, 1, 0], 16),
        ([0, 0, 0, 1], 16),
        ([2, 0, 0, 3], 80),
        ([0, 256, 0, 0], 4_096),
        ([1_000; 4], 64_000),
    ] {
        let contents = file(counts, &[]);
        for more in [0, 1, 15, right - 1, right + 1, right + 16] {
            let whole = [&contents[..], &vec![0; more]].concat();
            assert_eq!(check(&whole).number, 3, "{counts:?} {more}");
            written(&whole, &contents);
        }
    }
}

/// For 3 with all counts zero, eight bytes of them would be accepted: the first is made 1.
#[test]
fn extra_bytes_without_rows_give_a_count() {
    for more in [1, 2, 8, 15, 16, 17, 32, 1_000] {
        for byte in [0, 1, 255] {
            let whole = [vec![0; 8], vec![byte; more]].concat();
            assert_eq!(check(&whole).number, 3);
            written(&whole, &[1, 0, 0, 0, 0, 0, 0, 0]);
        }
    }
}

/// The same of rows, in the first class and in the last.
#[test]
fn a_bad_row_gives_24_bytes() {
    let mut bad = clean(3);
    bad[0] = 32;
    let whole = book([&[clean(0)], &[], &[clean(2)], &[clean(3), bad, clean(3)]]);
    written(&whole, &book([&[], &[], &[], &[bad]]));
    let bad = row(7, 4, 361, 900, 5);
    let whole = interest(&[bad, clean(0)]);
    written(&whole, &interest(&[bad]));
}

/// Catches a length before the rows' own refusals: what comes first in the charge call's order is
/// shown, though a row is bad too.
#[test]
fn the_contents_come_before_the_rows() {
    let mut bad = clean(0);
    bad[0] = 32;
    let long = [interest(&[bad]), vec![0]].concat();
    written(&long, &[1, 0, 0, 0, 0, 0, 0, 0]);
    let two = file([2, 0, 0, 0], &[bad]);
    written(&two, &[2, 0, 0, 0, 0, 0, 0, 0]);
    let many = file([1, 4_000, 0, 0], &[bad]);
    written(&many, &many[..8]);
}
