//! Every refusal, and the order in which they are tried.

mod common;
use common::*;
use second::{check, commodity_ladder, join, Refusal, Report};

/// A refusal of a row.
fn at(number: u64, row: u64) -> Refusal {
    Refusal {
        number,
        row,
        book: 0,
    }
}

/// Each row that a class refuses, with the number of its refusal.
fn faulty(class: usize) -> Vec<(u64, Bytes)> {
    let change = |edit: &dyn Fn(&mut Bytes)| {
        let mut row = clean(class);
        edit(&mut row);
        row
    };
    let kind = [5, 4, 1, 1][class];
    let days = if class == 0 || class == 3 {
        36_001
    } else {
        1u16
    };
    let coupon = if class == 0 { 10_001 } else { 1u16 };
    vec![
        (4, change(&|row| row[0] = 32)),
        (4, change(&|row| row[0] = 255)),
        (5, change(&|row| row[1] = kind)),
        (5, change(&|row| row[1] = 255)),
        (
            6,
            change(&|row| row[2..4].copy_from_slice(&days.to_le_bytes())),
        ),
        (
            7,
            change(&|row| row[4..6].copy_from_slice(&coupon.to_le_bytes())),
        ),
        (8, change(&|row| row[8..16].fill(0))),
        (8, change(&|row| row[8..16].fill(1))),
        (9, sides(1, clean(class)[1], 0, 0, 1_000_000_001, 0)),
        (9, sides(1, clean(class)[1], 0, 0, 0, u32::MAX)),
    ]
}

#[test]
fn rows_first_in_the_middle_and_last() {
    for class in 0..4 {
        for (number, bad) in faulty(class) {
            for place in 0..3u64 {
                let mut bodies: Vec<Vec<Bytes>> = (0..4).map(|c| vec![clean(c); 3]).collect();
                bodies[class][place as usize] = bad;
                let file = file([3; 4], &bodies.concat());
                let expected = at(number, 3 * class as u64 + place);
                assert_eq!(check(&file), expected, "class {class}");
                let zero = Report {
                    refusal: expected,
                    ..Report::default()
                };
                assert_eq!(charge(&file), zero);
            }
        }
    }
}

#[test]
fn the_first_bad_row_wins_whatever_its_number() {
    let late = sides(32, 9, 1, 1, 0, 0);
    let early = sides(1, 1, 0, 0, 0, 0);
    assert_eq!(check(&interest(&[clean(0), early, late])), at(8, 1));
    assert_eq!(check(&interest(&[clean(0), late, early])), at(4, 1));
}

#[test]
fn a_row_is_tried_from_4_to_9() {
    let tried = [
        (4, sides(32, 5, 36_001, 10_001, 0, 0)),
        (5, sides(31, 5, 36_001, 10_001, 0, 0)),
        (6, sides(31, 3, 36_001, 10_001, 0, 0)),
        (7, sides(31, 3, 36_000, 10_001, 0, 0)),
        (8, sides(31, 3, 36_000, 10_000, 2_000_000_000, 1)),
        (9, sides(31, 3, 36_000, 10_000, 2_000_000_000, 0)),
        (0, sides(31, 3, 36_000, 10_000, 1_000_000_000, 0)),
    ];
    for (number, row) in tried {
        assert_eq!(check(&interest(&[row])), at(number, 0));
    }
}

/// Catches a new kind that is let in, and with it a charge that nobody wrote.
#[test]
fn every_kind_but_those_of_its_class_is_refused() {
    let known: [&[u8]; 4] = [&[1, 2, 3, 4], &[1, 2, 3], &[0], &[0]];
    for (class, kinds) in known.iter().enumerate() {
        for kind in 0..=255 {
            let mut bodies: [&[Bytes]; 4] = [&[]; 4];
            let rows = [row(1, kind, 0, 0, 1)];
            bodies[class] = &rows;
            let number = if kinds.contains(&kind) { 0 } else { 5 };
            assert_eq!(check(&book(bodies)), at(number, 0), "{class} {kind}");
        }
    }
}

#[test]
fn contents() {
    for length in 0..8 {
        assert_eq!(check(&vec![255; length]), Refusal::of(1));
    }
    assert_eq!(check(&file([65_535, 1, 0, 0], &[])), Refusal::of(2));
    assert_eq!(check(&file([65_535; 4], &[])), Refusal::of(2));
    assert_eq!(check(&file([1, 0, 0, 0], &[])), Refusal::of(3));
    assert_eq!(check(&file([0; 4], &[clean(0)])), Refusal::of(3));
    let mut longer = interest(&[clean(0)]);
    longer.push(0);
    assert_eq!(check(&longer), Refusal::of(3));
    longer.truncate(23);
    assert_eq!(check(&longer), Refusal::of(3));
}

#[test]
fn a_full_book_is_accepted_and_one_row_more_is_not() {
    assert_eq!(check(&interest(&vec![clean(0); 4000])), Refusal::NONE);
    assert_eq!(check(&interest(&vec![clean(0); 4001])), Refusal::of(2));
    let mut last = vec![clean(0); 4000];
    last[3999][0] = 32;
    assert_eq!(check(&interest(&last)), at(4, 3999));
}

#[test]
fn ladder_groups_come_before_the_book() {
    for group in [32, 33, 256, usize::MAX] {
        assert_eq!(interest_ladder(&[], group).refusal, Refusal::of(10));
        assert_eq!(commodity_ladder(&[], group).refusal, Refusal::of(10));
    }
    assert_eq!(interest_ladder(&[], 31).refusal, Refusal::of(1));
    assert_eq!(commodity_ladder(&[], 31).refusal, Refusal::of(1));
}

#[test]
fn join_tries_a_then_b_then_the_caller() {
    let good = interest(&vec![clean(0); 2001]);
    let bad = interest(&[clean(0), sides(1, 1, 0, 0, 0, 0)]);
    let mut out = [7; 8];
    let mut number = |a: &[u8], b: &[u8]| join(a, b, &mut out).refusal;
    assert_eq!(number(&bad, &[]), at(8, 1));
    let of_b = Refusal {
        book: 1,
        ..at(8, 1)
    };
    assert_eq!(number(&good, &bad), of_b);
    assert_eq!(number(&good, &good), Refusal::of(11));
    assert_eq!(number(&good, &[0; 8]), Refusal::of(12));
    assert_eq!(out, [7; 8]);
    assert_eq!(join(&good, &bad, &mut out).length, 0);
}

#[test]
fn joined_rows_may_be_4000_and_no_more() {
    let (half, more) = (interest(&[clean(0); 2000]), interest(&[clean(0); 2001]));
    let mut out = vec![0; 64_008];
    assert_eq!(join(&half, &half, &mut out).length, 64_008);
    assert_eq!(join(&half, &more, &mut out).refusal, Refusal::of(11));
    assert_eq!(join(&more, &half, &mut out[..8]).refusal, Refusal::of(11));
}
