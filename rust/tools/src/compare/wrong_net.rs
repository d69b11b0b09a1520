//! Wrong readings of netting: a run must find each, and show a small book for it.

use super::case::Case;
use super::misread_net::Misread;
use super::net_readings::Wrong;
use super::run::Run;
use super::{check, laws};
use crate::calls::{Calls, Second};

/// A run of 3,000 cases with a reading.
pub fn run(library: &dyn Calls) -> Run<'_> {
    Run {
        library,
        other: &Second,
        cases: Case::new,
        seed: 1,
        first: 0,
        count: 3_000,
    }
}

/// How a result that differs is told, and a byte of the output.
pub const NET: &str = "net by a wrong reading and by the second calculation: entry ";
const BYTE: &str = "net: output byte ";

/// A second row that is unlike the first is not told, in an output without room; or is told where
/// it is not of the same issue.
const UNSEEN: &str = "0 is 12 and 13, entry 1 is 0 and 1\n";
const SEEN: &str = "0 is 13 and 12, entry 1 is 1 and 0\n";

/// Holds what is told of a wrong reading, which a run must find, to what differs and to the most
/// rows that are wanted to show it.
pub fn shown(wrong: Wrong, how: &str, words: &str, rows: usize) {
    let name = "a wrong reading";
    let told = format!("{wrong:?}");
    shown_by(&Misread { name, wrong }, &told, how, words, rows);
}

/// The same of a calculation, whose reading is told so.
pub fn shown_by(library: &dyn Calls, wrong: &str, how: &str, words: &str, rows: usize) {
    let Err(failure) = run(library).outcome() else {
        panic!("{wrong} is not found");
    };
    let message = failure.message;
    assert_eq!(failure.status, 1);
    assert!(
        message.contains(&format!("\n{how}{words}")),
        "{wrong}, {words}: {message}"
    );
    let few = |rows: usize| message.contains(&format!("\nbook A, {} bytes: ", 8 + 16 * rows));
    let none = rows == 0 && message.contains("\nbook A, 0 bytes: ");
    assert!((0..=rows).any(few) || none, "{wrong}: {message}");
    assert!(message.contains("\nbook B, 0 bytes: "), "{message}");
}

/// Catches wrong readings that are found because the reading of the others is wrong as well.
#[test]
fn the_right_reading_differs_nowhere() {
    let right = Misread {
        name: "the right reading",
        wrong: Wrong::Nothing,
    };
    let run = run(&right);
    let mut cases = (0..3_000).map(|number| Case::new(1, number));
    assert!(cases.all(|case| run.difference(&case).is_none()));
}

/// Catches bytes that are not compared: two rows or three are enough.
#[test]
fn wrong_books_are_shown_by_few_rows() {
    for (wrong, how, words, bytes) in [
        (Wrong::LastPlace, BYTE, "", 3),
        (Wrong::SideOfFirst, "net", "", 3),
        (Wrong::Cleared, BYTE, "8 is 0 by ", 0),
        (Wrong::PastTheEnd, BYTE, "8 is ", 0),
        (Wrong::RefusedWrites, BYTE, "0 is ", 0),
        (Wrong::ZeroNetted, NET, SEEN, 2),
        (Wrong::AcrossClasses, NET, SEEN, 2),
        (
            Wrong::PairsAlone,
            NET,
            "0 is 12 and 13, entry 1 is 0 and 2\n",
            3,
        ),
        (Wrong::LongKept(1), NET, "0 is 12 and 14\n", 2),
        // Without room nothing is written: what is left is a claim that does not hold.
        (
            Wrong::ZeroKept,
            "netting: ",
            "the netted book is refused with 8\n",
            2,
        ),
        (Wrong::Added, "netting: ", "netted, ", 2),
    ] {
        shown(wrong, how, words, bytes);
    }
}

/// Catches refusals, rows and their order that are not compared.
#[test]
fn wrong_refusals_are_shown_by_few_rows() {
    for (wrong, words, bytes) in [
        (Wrong::RunningSum, "0 is 14 and 12\n", 3),
        (Wrong::FourteenFirst, "0 is 14 and 13, entry 1 is 0 and ", 4),
        (Wrong::ThirteenAtFirst, "1 is 0 and 1\n", 2),
        (Wrong::FourteenAtLast, "1 is 1 and 0\n", 2),
        (Wrong::TwelveFirst, UNSEEN, 2),
        (Wrong::TwelveOfBook, "0 is 12 and 0, entry 3 is 0 and ", 2),
        (Wrong::ThirteenBeforeRows, "0 is 13 and 5\n", 2),
        (Wrong::NotCompared(0), UNSEEN, 2),
        (Wrong::NotCompared(1), UNSEEN, 2),
        (Wrong::NotCompared(2), UNSEEN, 2),
        (Wrong::NotCompared(3), UNSEEN, 2),
        (Wrong::MaturityNotCompared, UNSEEN, 2),
        (Wrong::LimitRefused, "0 is 14 and 12\n", 2),
        (Wrong::ShortUnlimited, "0 is 12 and 14\n", 2),
        (Wrong::Wrapped, "0 is 12 and 14\n", 4),
        (Wrong::RowOfClass, "1 is 1 and 2\n", 3),
        (Wrong::LengthKept, "3 is 8 and 0\n", 0),
    ] {
        shown(wrong, NET, words, bytes);
    }
}

/// Catches claims that are not sampled: two calculations have the same wrong reading, and no
/// figure differs.
#[test]
fn the_claims_alone_find_what_two_calculations_have_in_common() {
    for (wrong, words) in [
        (
            Wrong::ZeroKept,
            "netting: the netted book is refused with 8",
        ),
        (
            Wrong::ShortUnlimited,
            "netting: the netted book is refused with 9",
        ),
        (
            Wrong::PairsAlone,
            "netting: netted again, the netted book changes",
        ),
        (Wrong::Added, "netting: netted, interest general is "),
        (Wrong::Added, "netting: netted, equity general is "),
        (Wrong::Added, "netting: netted, foreign exchange is "),
        (Wrong::Added, "netting: netted, commodity is "),
        (Wrong::LongKept(4), "netting: joined, interest specific is "),
        (Wrong::LongKept(4), "netting: joined, interest general is "),
        (Wrong::LongKept(4), "netting: joined, equity specific is "),
        (Wrong::LongKept(4), "netting: joined, commodity is "),
    ] {
        let [one, other] = ["one", "another"].map(|name| Misread { name, wrong });
        let cases = (0..6_000).map(|number| Case::new(1, number));
        let mut found = cases.filter_map(|case| Some((laws::broken(&one, &case)?, case)));
        let (told, case) = found
            .find(|(told, _)| told.starts_with(words))
            .unwrap_or_else(|| panic!("{wrong:?} is not found: {words}"));
        assert_eq!(check::difference(&one, &other, &case), None, "{told}");
    }
}

/// Catches books that come up so seldom that a run misses what is right of them.
#[test]
fn no_claim_fails_of_the_second_calculation() {
    let mut cases = (0..3_000).map(|number| Case::new(2, number));
    assert!(cases.all(|case| laws::broken(&Second, &case).is_none()));
}
