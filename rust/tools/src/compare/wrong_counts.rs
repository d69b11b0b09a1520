//! Wrong counts of comparisons: a run must find each, and show a small book for it.

use super::case::Case;
use super::count_readings::Count;
use super::misread_net::Misread;
use super::net_readings::Wrong;
use super::wrong_net::{shown, NET};
use super::{check, laws};
use crate::calls::Second;
use books::Book;

/// Catches a count that is not compared, or in some books alone: two rows or three are enough.
#[test]
fn wrong_counts_are_shown_by_few_rows() {
    for (count, words, rows) in [
        (Count::ZeroAnIssue, "1 and 0", 2),
        (Count::UnnumberedKept, "1 and 0", 2),
        (Count::EveryEarlier, "3 and 2", 3),
        (Count::EqualLeftOut, "0 and 1", 2),
        (Count::NotStopped, "3 and 2", 3),
        (Count::FromTheLast, "3 and 2", 3),
        (Count::AcrossClasses, "1 and 0", 2),
        (Count::InterestAlone, "0 and 1", 2),
        (Count::ZeroForgotten, "1 and 2", 3),
        (Count::LeftAlone, "0 and 1", 2),
        (Count::Most, "1 and 0", 2),
        (Count::KeptOnTwelve, "1 and 0", 2),
        (Count::KeptOnIssues, "1 and 0", 2),
    ] {
        let words = format!("4 is {words}\n");
        shown(Wrong::Counted(count), NET, &words, rows);
    }
    // A row alone: without room the bound tells it.
    let told = "book A of 1 rows takes 1 comparisons, over 0\n";
    shown(Wrong::Counted(Count::WithItself), "netting: ", told, 1);
}

/// Catches cases that are all of few issues: a count of 16 bits is right in all of these.
#[test]
fn a_count_of_16_bits_is_found() {
    let name = "a wrong reading";
    let wrong = Wrong::Counted(Count::Wrapped);
    let library = Misread { name, wrong };
    let cases = (0..30).map(|number| Case::new(1, 100 * number + 99));
    let told = cases.filter_map(|case| check::difference(&library, &Second, &case));
    let told: Vec<String> = told.collect();
    assert!(told.len() > 5, "{told:?}");
    let figure = format!("{NET}4 is ");
    assert!(
        told.iter().all(|told| told.starts_with(&figure)),
        "{told:?}"
    );
}

/// The two books of a case that a count of the same reading in both calculations breaks, by a claim
/// that is told so.
fn broken(count: Count, told: &str) -> [usize; 2] {
    let wrong = Wrong::Counted(count);
    let [one, other] = ["one", "another"].map(|name| Misread { name, wrong });
    let cases = (0..2_000).map(|number| Case::new(1, number));
    let mut found = cases.filter(|case| {
        let broken = laws::broken(&one, case);
        broken.is_some_and(|words| words.starts_with(told))
    });
    let case = found
        .next()
        .unwrap_or_else(|| panic!("{count:?} is not found: {told}"));
    assert_eq!(check::difference(&one, &other, &case), None, "{told}");
    [&case.a, &case.b].map(|book| Book::decode(book).map_or(0, |book| book.rows()))
}

/// Catches a bound that is not held to, of any book that is netted: two calculations count alike,
/// and no figure differs.
#[test]
fn the_bound_alone_finds_what_two_calculations_have_in_common() {
    broken(Count::WithItself, "netting: book A of ");
    broken(
        Count::OneMoreFrom(2),
        "netting: book A of 2 rows takes 2 comparisons, over 1",
    );
    let [a, _] = broken(Count::OneMoreFrom(3), "netting: book B of ");
    assert!(a > 0, "{a}");
    let [a, b] = broken(Count::OneMoreFrom(4), "netting: the joined book of ");
    assert!(a + b > 3, "{a} {b}");
}
