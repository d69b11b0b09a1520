//! The comparisons of netting: books worked by hand, wrong readings, and the request's words done
//! one comparison at a time.

mod common;
use common::*;
use second::{comparisons, net, netted};

/// A row that its class accepts, of an issue.
fn of(class: usize, issue: u16) -> Bytes {
    let mut row = clean(class);
    row[6..8].copy_from_slice(&issue.to_le_bytes());
    row
}

/// A book with rows of these issues in its classes.
fn numbered(classes: [&[u16]; 4]) -> Vec<u8> {
    let body = |class: usize| -> Vec<Bytes> {
        let issues = classes[class].iter();
        issues.map(|issue| of(class, *issue)).collect()
    };
    let bodies = [0, 1, 2, 3].map(body);
    book(bodies.each_ref().map(|body| &body[..]))
}

/// The figure of the call, with as much room as it can want.
fn made(book: &[u8]) -> u64 {
    let netted = net(book, &mut vec![0; book.len()]);
    assert!(netted.refusal.accepted(), "{netted:?}");
    netted.comparisons
}

/// The comparisons of rows of these issues in each class alone, which must be the same.
fn issues(issues: &[u16]) -> u64 {
    let alone = [0, 1, 2, 3].map(|class| {
        let mut classes: [&[u16]; 4] = [&[]; 4];
        classes[class] = issues;
        made(&numbered(classes))
    });
    assert_eq!(alone, [alone[0]; 4]);
    alone[0]
}

/// Catches a first row that is compared with itself, the equal one that is not counted, and a
/// search that goes on after it or begins at the last.
#[test]
fn each_row_is_compared_up_to_the_first_equal() {
    assert_eq!(issues(&[]), 0);
    assert_eq!(issues(&[5]), 0);
    assert_eq!(issues(&[5, 5]), 1);
    assert_eq!(issues(&[5, 6]), 1);
    // Each of the second five is compared with the first alone.
    assert_eq!(issues(&[5, 5, 5, 5, 5, 5]), 5);
    // 0 + 1 + 2 for the first rows; 1, 2, 3 for those of the first, second, third issue.
    assert_eq!(issues(&[5, 6, 7, 5]), 3 + 1);
    assert_eq!(issues(&[5, 6, 7, 6]), 3 + 2);
    assert_eq!(issues(&[5, 6, 7, 7]), 3 + 3);
}

/// Catches rows that are compared with every earlier row, and a figure of the issues alone.
#[test]
fn the_order_of_rows_changes_the_figure() {
    assert_eq!(issues(&[1, 1, 2]), 2);
    assert_eq!(issues(&[1, 2, 2]), 3);
    assert_eq!(issues(&[1, 2, 1]), 2);
    assert_eq!(issues(&[2, 1, 1]), 3);
}

#[test]
fn different_issues_reach_the_bound() {
    for rows in [0, 1, 2, 3, 4, 100, 4_000] {
        let all: Vec<u16> = (1..=rows).map(|at| at * 16 + 3).collect();
        let rows = u64::from(rows);
        let mut bound = 0;
        (0..rows).for_each(|before| bound += before);
        let book = numbered([&all, &[], &[], &[]]);
        assert_eq!(made(&book), bound, "{rows} rows");
        assert_eq!(2 * bound, rows * rows.saturating_sub(1));
    }
}

/// Catches number 0 as an issue, and rows without one that others are compared with.
#[test]
fn rows_numbered_0_are_free() {
    assert_eq!(issues(&[0, 0, 0, 0]), 0);
    assert_eq!(issues(&[0, 5, 0, 0, 5, 0]), 1);
    assert_eq!(issues(&[0, 0, 5, 6]), 1);
}

/// Catches numbers of one class that are searched in the next, and a number of one byte.
#[test]
fn classes_are_apart_and_numbers_have_two_bytes() {
    assert_eq!(made(&numbered([&[5], &[5], &[5], &[5]])), 0);
    assert_eq!(made(&numbered([&[5], &[6], &[7], &[8]])), 0);
    assert_eq!(made(&numbered([&[5, 6], &[6, 5], &[0, 6], &[6, 6, 6]])), 4);
    assert_eq!(issues(&[1, 256, 257, 65_535, 256]), 6 + 2);
}

/// Catches a kept row that is forgotten when its issue nets to zero, on the way or in the end.
#[test]
fn an_issue_that_nets_to_zero_counts() {
    let turned = |row: Bytes| {
        let mut row = row;
        row[8..].rotate_left(4);
        row
    };
    let (five, six) = (of(0, 5), of(0, 6));
    // 0, 1, then 1 and 2 for issue 6.
    let whole = interest(&[five, turned(five), six, six]);
    assert_eq!(netted(&whole).unwrap().len(), 24);
    assert_eq!(made(&whole), 1 + 1 + 2);
    // Zero after two rows, and not in the end.
    assert_eq!(made(&interest(&[five, turned(five), six, five])), 3);
    assert_eq!(made(&interest(&[five, six, turned(five), turned(six)])), 4);
}

/// Catches a figure that is kept: on 12, and on refusals with all rows read.
#[test]
fn a_refusal_has_no_comparisons() {
    let whole = numbered([&[5, 5, 6], &[5, 5], &[], &[]]);
    assert_eq!(comparisons(&whole), 3);
    for room in [0, 8, 55] {
        let refused = net(&whole, &mut vec![0; room]);
        assert_eq!(refused.entries(), [12, 0, 0, 0, 0]);
    }
    assert_eq!(net(&whole, &mut [0; 56]).entries(), [0, 0, 0, 56, 3]);
    let mut out = [0; 100];
    let mut unlike = whole.clone();
    unlike[8 + 16] += 1;
    assert_eq!(net(&unlike, &mut out).entries(), [13, 1, 0, 0, 0]);
    let most = row(7, 1, 1080, 800, 1_000_000_000);
    let mut rows = [most, most];
    rows.iter_mut().for_each(|row| row[6] = 5);
    assert_eq!(net(&interest(&rows), &mut out).entries(), [14, 0, 0, 0, 0]);
    let mut bad = whole.clone();
    bad[8 + 4 * 16] = 32;
    assert_eq!(net(&bad, &mut out).entries(), [4, 4, 0, 0, 0]);
    assert_eq!(comparisons(&bad), 0);
    assert_eq!(net(&whole[..87], &mut out).entries(), [3, 0, 0, 0, 0]);
}

/// The request's words, one comparison at a time.
fn one_by_one(issues: &[u16]) -> u64 {
    let (mut kept, mut made) = (Vec::new(), 0);
    for issue in issues.iter().filter(|issue| **issue != 0) {
        let mut found = false;
        for earlier in &kept {
            made += 1;
            if earlier == issue {
                found = true;
                break;
            }
        }
        if !found {
            kept.push(*issue);
        }
    }
    made
}

/// All rows of numbers 0 to 4 up to six rows, and longer ones: the figure is what comparing them
/// comes to, and never above the bound.
#[test]
fn the_figure_is_what_comparing_comes_to() {
    for length in 0..=6u32 {
        for mix in 0..5usize.pow(length) {
            let row = |at: u32| (mix / 5usize.pow(at) % 5) as u16;
            let list: Vec<u16> = (0..length).map(row).collect();
            let figure = made(&numbered([&list, &[], &[], &[]]));
            assert_eq!(figure, one_by_one(&list), "{list:?}");
            assert!(2 * figure <= u64::from(length) * u64::from(length.saturating_sub(1)));
        }
    }
    for step in [1u32, 7, 1_009, 40_503] {
        let list: Vec<u16> = (0..1_500).map(|at| (at * at * step % 601) as u16).collect();
        assert_eq!(made(&numbered([&[], &list, &[], &[]])), one_by_one(&list));
    }
}
