//! Wrong readings of the small bank: a run must find each, and show a small book for it.

use super::case::Case;
use super::misread_small::{Misread, Wrong};
use super::run::Run;
use super::{check, laws};
use crate::calls::Second;

/// How a run of 8,000 cases fails with a wrong reading, which it must.
fn told(wrong: Wrong) -> String {
    let library = Misread {
        name: "a wrong reading",
        wrong,
    };
    let run = Run {
        library: &library,
        other: &Second,
        cases: Case::new,
        seed: 1,
        first: 0,
        count: 8_000,
    };
    let Err(failure) = run.outcome() else {
        panic!("{wrong:?} is not found");
    };
    assert_eq!(failure.status, 1);
    failure.message
}

/// Holds what is told of a wrong reading to the entry that differs and to the sizes of the books.
fn shown(wrong: Wrong, words: &str, bytes: usize) {
    let message = told(wrong);
    let call = "\nsmall bank by a wrong reading and by the second calculation: entry ";
    assert!(
        message.contains(&format!("{call}{words}")),
        "{wrong:?}: {message}"
    );
    let book = format!("\nbook A, {bytes} bytes: ");
    assert!(message.contains(&book), "{wrong:?}: {message}");
    let other = "\nbook B, 0 bytes: ";
    assert!(message.contains(other), "{wrong:?}: {message}");
}

/// Catches figures that are not compared: a row or two are enough.
#[test]
fn wrong_figures_are_shown_by_few_rows() {
    for (wrong, words, bytes) in [
        (Wrong::NetAtThree, "4 is ", 40),
        (Wrong::GrossAtFifteen, "4 is ", 40),
        (Wrong::OneSideAtThree, "4 is ", 40),
        (Wrong::AcrossCommodities, "4 is ", 40),
        (Wrong::GoldAsCurrency, "3 is ", 40),
        (Wrong::Ladder, "4 is ", 24),
        (Wrong::FirstLeftOut, "4 is 0 and ", 24),
        (Wrong::LastLeftOut, "4 is 0 and ", 24),
        (Wrong::TotalWithoutExchange, "5 is 0 and ", 24),
        (Wrong::Side, "4 is ", 24),
        (Wrong::Order, "4 is ", 24),
        (Wrong::TotalUnwritten, "5 is 11936128518282651045 and 0", 0),
    ] {
        shown(wrong, words, bytes);
    }
}

/// Catches refusals that are not compared, with the books that show them best: one row, or none
/// where 20 comes too early.
#[test]
fn wrong_refusals_are_shown_by_one_row() {
    for (wrong, words, bytes) in [
        (Wrong::Ignored(0), "0 is 0 and 20\n", 24),
        (Wrong::Ignored(1), "0 is 0 and 20\n", 24),
        (Wrong::AfterRows, "0 is 8 and 20\n", 24),
        (Wrong::BadInterestFirst, "0 is 8 and 20\n", 24),
        (Wrong::Before(2), "0 is 20 and 2\n", 8),
        (Wrong::Before(3), "0 is 20 and 3\n", 8),
        (Wrong::RowNamed, "1 is 1 and 0\n", 24),
        (Wrong::FigureKept, "3 is 1 and 0\n", 24),
        (Wrong::LateFigureKept, "5 is 1 and 0\n", 24),
        (Wrong::DaysUnlimited, "0 is 8 and 6\n", 24),
    ] {
        shown(wrong, words, bytes);
    }
}

/// Catches claims that are not sampled: two calculations have the same wrong reading, and no
/// figure differs.
#[test]
fn the_claims_alone_find_what_two_calculations_have_in_common() {
    for (wrong, words) in [
        (Wrong::Side, "small bank: mirrored and as it is: entry 4 "),
        (Wrong::Order, "small bank: reordered"),
        (Wrong::Dear(3), "small bank: joined, foreign exchange is "),
        (Wrong::Dear(4), "small bank: joined, commodity is "),
        (Wrong::Dear(5), "small bank: joined, total is "),
        (
            Wrong::LongRefused,
            "small bank: the joined book is refused with 2",
        ),
    ] {
        let [one, other] = ["one", "another"].map(|name| Misread { name, wrong });
        let cases = (0..3_000).map(|number| Case::new(1, number));
        let mut found = cases.filter_map(|case| Some((laws::broken(&one, &case)?, case)));
        let (told, case) = found
            .find(|(told, _)| told.starts_with(words))
            .unwrap_or_else(|| panic!("{wrong:?} is not found"));
        assert_eq!(check::difference(&one, &other, &case), None, "{told}");
    }
}

/// Catches small banks that come up so seldom that a run misses what is right of them.
#[test]
fn no_claim_fails_of_the_second_calculation() {
    let mut cases = (0..3_000).map(|number| Case::new(2, number));
    assert!(cases.all(|case| laws::broken(&Second, &case).is_none()));
}
