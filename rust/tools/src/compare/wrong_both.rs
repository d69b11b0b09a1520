//! Wrong readings of netting and then offsetting: a run must find each, and show a small book for it.

use super::both_readings::Wrong;
use super::case::Case;
use super::misread_both::Misread;
use super::wrong_net::{run, shown_by};
use super::{check, laws};

/// How a result that differs is told, a byte of the output, and a claim.
const BOTH: &str = "net and offset by a wrong reading and by the second calculation: entry ";
const BYTE: &str = "net and offset: output byte ";
const CLAIM: &str = "netting and offsetting: ";

/// Holds what is told of a wrong reading to what differs, and to the most rows that show it.
fn shown(wrong: Wrong, how: &str, words: &str, rows: usize) {
    let name = "a wrong reading";
    let told = format!("{wrong:?}");
    shown_by(&Misread { name, wrong }, &told, how, words, rows);
}

/// Catches wrong readings that are found because the reading of the others is wrong as well.
#[test]
fn the_right_reading_differs_nowhere() {
    let right = Misread {
        name: "the right reading",
        wrong: Wrong::Nothing,
    };
    let run = run(&right);
    let mut cases = (0..3_000).map(|number| Case::new(1, number));
    assert!(cases.all(|case| run.difference(&case).is_none()));
}

/// Catches an order that is not compared, and a call that does one of the two alone.
#[test]
fn wrong_orders_are_shown_by_few_rows() {
    for (wrong, how, words, rows) in [
        (Wrong::OffsetFirst, BOTH, "", 4),
        (Wrong::OffsetTwice, BOTH, "", 4),
        (Wrong::NotNetted, BOTH, "", 2),
        (
            Wrong::NotOffset,
            CLAIM,
            "rows 0 and 1 of the written book fit\n",
            2,
        ),
        (
            Wrong::OneIssue,
            CLAIM,
            "rows 0 and 1 of the written book fit\n",
            2,
        ),
        (
            Wrong::Numbered,
            CLAIM,
            "rows 0 and 1 of the written book fit\n",
            2,
        ),
        (
            Wrong::Unnumbered,
            CLAIM,
            "rows 0 and 1 of the written book fit\n",
            2,
        ),
        (
            Wrong::LongKept(1),
            CLAIM,
            "rows 0 and 1 of the written book fit\n",
            2,
        ),
    ] {
        shown(wrong, how, words, rows);
    }
}

/// Catches outputs, refusals and lengths that are not compared.
#[test]
fn wrong_outputs_are_shown_by_few_rows() {
    for (wrong, how, words, rows) in [
        (
            Wrong::TwelveOfNetted,
            BOTH,
            "0 is 12 and 0, entry 3 is 0 and 8\n",
            2,
        ),
        (
            Wrong::TwelveOfBook,
            BOTH,
            "0 is 12 and 0, entry 3 is 0 and 8",
            2,
        ),
        (
            Wrong::Twelve(1),
            BOTH,
            "0 is 0 and 12, entry 3 is 8 and 0\n",
            0,
        ),
        (
            Wrong::Twelve(-1),
            BOTH,
            "0 is 12 and 0, entry 3 is 0 and 8\n",
            0,
        ),
        (Wrong::TwelveFirst, BOTH, "0 is 12 and 14\n", 2),
        (
            Wrong::Skipped(13),
            BOTH,
            "0 is 12 and 13, entry 1 is 0 and 1\n",
            2,
        ),
        (Wrong::Skipped(14), BOTH, "0 is 12 and 14\n", 2),
        (Wrong::NettedLeft, BYTE, "8 is ", 3),
        (Wrong::NettedOnTheWay, BYTE, "8 is ", 2),
        (Wrong::Cleared, BYTE, "8 is 0 by ", 0),
        (Wrong::PastTheEnd, BYTE, "8 is ", 0),
        (Wrong::RefusedWrites, BYTE, "0 is ", 0),
        (Wrong::LengthKept, BOTH, "3 is 8 and 0\n", 0),
    ] {
        shown(wrong, how, words, rows);
    }
}

/// Catches comparisons that are not compared, on a refusal too.
#[test]
fn wrong_counts_are_shown_by_few_rows() {
    for (wrong, words, rows) in [
        (Wrong::CountKept, "4 is 1 and 0\n", 2),
        (Wrong::CountOfOffset, "4 is 0 and 1\n", 3),
        (Wrong::CountOfWritten, "4 is 0 and 1\n", 2),
        (Wrong::CountOfNone, "4 is 0 and 1\n", 2),
    ] {
        shown(wrong, BOTH, words, rows);
    }
}

/// Catches claims that are not sampled: two calculations have the same wrong reading, and no
/// figure differs.
#[test]
fn the_claims_alone_find_what_two_calculations_have_in_common() {
    let in_turn = "netting and offsetting: one call gives ";
    for (wrong, words) in [
        (Wrong::OffsetFirst, in_turn),
        (Wrong::OffsetTwice, in_turn),
        (Wrong::NotNetted, in_turn),
        (Wrong::NotOffset, in_turn),
        (Wrong::NotOffset, "netting and offsetting: rows "),
        (Wrong::Numbered, "netting and offsetting: rows "),
        (Wrong::LongKept(4), "netting and offsetting: rows "),
        (Wrong::Skipped(13), in_turn),
        (Wrong::Skipped(14), in_turn),
    ] {
        let [one, other] = ["one", "another"].map(|name| Misread { name, wrong });
        let cases = (0..3_000).map(|number| Case::new(1, number));
        let mut found = cases.filter_map(|case| Some((laws::broken(&one, &case)?, case)));
        let (told, case) = found
            .find(|(told, _)| told.starts_with(words))
            .unwrap_or_else(|| panic!("{wrong:?} is not found: {words}"));
        assert_eq!(check::difference(&one, &other, &case), None, "{told}");
    }
}
