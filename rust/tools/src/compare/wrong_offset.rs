//! Wrong readings of offsetting: a run must find each, and show a small book for it.

use super::case::Case;
use super::misread_offset::Misread;
use super::offset_readings::Wrong;
use super::wrong_net::{run, shown_by};
use super::{check, laws};

/// How a result that differs is told, a byte of the output, and a claim.
const OFFSET: &str = "offset by a wrong reading and by the second calculation: entry ";
const BYTE: &str = "offset: output byte ";
const CLAIM: &str = "offsetting: ";

/// What is told of a pair that goes and should not, of one that takes a third leg with it, of a book
/// that seems too long, and of a pair that goes where there is no room for it; of one that stays and
/// should not; of a book that does not stay; and of rows that are no legs.
const GOES: &str = "3 is 8 and 40\n";
const ALL_GO: &str = "3 is 8 and 24\n";
const TOO_LONG: &str = "0 is 12 and 0, entry 3 is 0 and 8\n";
const GOES_UNASKED: &str = "0 is 0 and 12, entry 3 is 8 and 0\n";
const STAYS: &str = "rows 0 and 1 of the written book fit\n";
const CHANGES: &str = "offset again, the written book changes\n";
const OTHERS: &str = "rows that are no legs are not as they were\n";

/// Holds what is told of a wrong reading to what differs, and to the most rows that show it.
fn shown(wrong: Wrong, how: &str, words: &str, rows: usize) {
    let name = "a wrong reading";
    let told = format!("{wrong:?}");
    shown_by(&Misread { name, wrong }, &told, how, words, rows);
}

/// Catches wrong readings that are found because the reading of the others is wrong as well.
#[test]
fn the_right_reading_differs_nowhere() {
    let right = Misread {
        name: "the right reading",
        wrong: Wrong::Nothing,
    };
    let run = run(&right);
    let mut cases = (0..3_000).map(|number| Case::new(1, number));
    assert!(cases.all(|case| run.difference(&case).is_none()));
}

/// Catches legs that are not looked at beside others: which of them go, and which stay.
#[test]
fn wrong_orders_are_shown_by_few_rows() {
    for (wrong, how, words, rows) in [
        (Wrong::Last, BYTE, "", 3),
        (Wrong::Nearest, BYTE, "", 3),
        (Wrong::Backwards, BYTE, "", 3),
        (Wrong::OfferedAgain, OFFSET, ALL_GO, 3),
        (Wrong::TakesAgain, OFFSET, ALL_GO, 3),
        (Wrong::EarlierStays, OFFSET, TOO_LONG, 2),
        (Wrong::OthersMoved, BYTE, "9 is 1 by ", 2),
        (Wrong::ClassesTurned, CLAIM, OTHERS, 2),
        (Wrong::LegLost, CLAIM, CHANGES, 2),
        (Wrong::LegTwice, CLAIM, "of 1 rows 2 are written\n", 1),
        (
            Wrong::CountKept,
            CLAIM,
            "the written book is refused with 3\n",
            2,
        ),
        (Wrong::LongKept(1), CLAIM, STAYS, 2),
    ] {
        shown(wrong, how, words, rows);
    }
}

/// Catches limits that no two legs of a run lie at, and conditions that all of them meet.
#[test]
fn wrong_limits_are_shown_by_two_rows() {
    for (wrong, how, words) in [
        (Wrong::Farther, OFFSET, GOES),
        (Wrong::Days([1, 0, 0]), OFFSET, GOES),
        (Wrong::Days([0, 1, 0]), OFFSET, GOES),
        (Wrong::Days([0, -1, 0]), CLAIM, STAYS),
        (Wrong::Days([0, 0, 1]), OFFSET, GOES),
        (Wrong::Days([0, 0, -1]), CLAIM, STAYS),
        (Wrong::Ranges([-1, 0]), OFFSET, GOES),
        (Wrong::Ranges([1, 0]), CLAIM, STAYS),
        (Wrong::Ranges([0, -1]), OFFSET, GOES),
        (Wrong::Ranges([0, 1]), CLAIM, STAYS),
        (Wrong::Coupons(16), OFFSET, GOES_UNASKED),
        (Wrong::Coupons(14), CLAIM, STAYS),
        (Wrong::AnyAmount, OFFSET, GOES),
        (Wrong::SameSide, OFFSET, GOES),
        (Wrong::Kinds(&[2]), CLAIM, OTHERS),
        (Wrong::Kinds(&[3]), CLAIM, OTHERS),
        (Wrong::Kinds(&[4]), CLAIM, OTHERS),
        (Wrong::AcrossCurrencies, OFFSET, GOES_UNASKED),
        (Wrong::OneIssue, CLAIM, STAYS),
        (Wrong::OtherIssue, CLAIM, STAYS),
        (Wrong::EquityToo, CLAIM, OTHERS),
    ] {
        shown(wrong, how, words, 2);
    }
}

/// Catches outputs and refusals that are not compared.
#[test]
fn wrong_outputs_are_shown_by_few_rows() {
    for (wrong, how, words, rows) in [
        (Wrong::Cleared, BYTE, "8 is 0 by ", 0),
        (Wrong::PastTheEnd, BYTE, "8 is ", 0),
        (Wrong::Twelve(1), OFFSET, GOES_UNASKED, 0),
        (Wrong::Twelve(-1), OFFSET, TOO_LONG, 0),
        (Wrong::TwelveOfBook, OFFSET, TOO_LONG, 2),
        (Wrong::TwelveFirst, OFFSET, "0 is 12 and ", 1),
        (Wrong::LengthKept, OFFSET, "3 is 8 and 0\n", 0),
        (Wrong::RefusedWrites, BYTE, "0 is ", 0),
        (Wrong::BeforeRows, OFFSET, "1 is 0 and 1\n", 3),
    ] {
        shown(wrong, how, words, rows);
    }
}

/// Catches claims that are not sampled: two calculations have the same wrong reading, and no
/// figure differs.
#[test]
fn the_claims_alone_find_what_two_calculations_have_in_common() {
    let of_rows = "offsetting: rows ";
    for (wrong, words) in [
        (
            Wrong::CountKept,
            "offsetting: the written book is refused with 3",
        ),
        (Wrong::ClassesTurned, "offsetting: rows that are no legs "),
        (Wrong::Kinds(&[2]), "offsetting: rows that are no legs "),
        (Wrong::EquityToo, "offsetting: rows that are no legs "),
        (Wrong::Coupons(14), of_rows),
        (Wrong::Days([0, -1, 0]), of_rows),
        (Wrong::Days([0, 0, -1]), of_rows),
        (Wrong::EarlierStays, of_rows),
        (Wrong::LongKept(4), of_rows),
        (Wrong::LegTwice, "offsetting: of "),
        (Wrong::LegLost, "offsetting: offset again, "),
    ] {
        let [one, other] = ["one", "another"].map(|name| Misread { name, wrong });
        let cases = (0..3_000).map(|number| Case::new(1, number));
        let mut found = cases.filter_map(|case| Some((laws::broken(&one, &case)?, case)));
        let (told, case) = found
            .find(|(told, _)| told.starts_with(words))
            .unwrap_or_else(|| panic!("{wrong:?} is not found: {words}"));
        assert_eq!(check::difference(&one, &other, &case), None, "{told}");
    }
}
