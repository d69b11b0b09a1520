//! Wrong readings of the shortest file that shows a refusal: a run must find each, and show a small
//! book for it.

use super::case::Case;
use super::misread_shortest::Misread;
use super::shortest_readings::Wrong;
use super::wrong_net::run;
use super::{check, laws};

/// How a result that differs is told, a byte of the output, and a claim.
const SHORTEST: &str = "shortest by a wrong reading and by the second calculation: entry ";
const BYTE: &str = "shortest: output byte ";
const CLAIM: &str = "shortest: ";

/// Holds what is told of a wrong reading, which a run must find, to what differs and to the most
/// bytes of a book that are wanted to show it.
fn shown(wrong: Wrong, how: &str, words: &str, bytes: usize) {
    let name = "a wrong reading";
    let Err(failure) = run(&Misread { name, wrong }).outcome() else {
        panic!("{wrong:?} is not found");
    };
    let message = failure.message;
    assert_eq!(failure.status, 1);
    let told = format!("\n{how}{words}");
    assert!(message.contains(&told), "{wrong:?}, {words}: {message}");
    let few = |bytes: usize| message.contains(&format!("\nbook A, {bytes} bytes: "));
    assert!((0..=bytes).any(few), "{wrong:?}: {message}");
    assert!(message.contains("\nbook B, 0 bytes: "), "{message}");
}

/// Catches wrong readings that are found because the reading of the others is wrong as well.
#[test]
fn the_right_reading_differs_nowhere() {
    let right = Misread {
        name: "the right reading",
        wrong: Wrong::Nothing,
    };
    let run = run(&right);
    let mut cases = (0..3_000).map(|number| Case::new(1, number));
    assert!(cases.all(|case| run.difference(&case).is_none()));
}

/// Catches a row that is not compared: its class, its place, its bytes, its counts.
#[test]
fn wrong_rows_are_shown_by_few_rows() {
    let refused = "the file of a book refused with ";
    for (wrong, how, words, rows) in [
        (Wrong::FirstClass, CLAIM, refused, 1),
        (Wrong::LastBad, CLAIM, refused, 2),
        (Wrong::PlaceInClass, CLAIM, refused, 2),
        (Wrong::LowByte, CLAIM, refused, 257),
        (
            Wrong::ClassBefore,
            CLAIM,
            "given once more, the file changes\n",
            1,
        ),
        (Wrong::CountKept, CLAIM, refused, 2),
        (Wrong::OthersKept, CLAIM, refused, 2),
        (Wrong::IssueCleared, BYTE, "14 is 0 by ", 1),
        (Wrong::NotesSkipped, SHORTEST, "0 is 0 and 12\n", 1),
    ] {
        shown(wrong, how, words, 8 + 16 * rows);
    }
}

/// Catches contents that are not compared.
#[test]
fn wrong_contents_are_shown_by_few_bytes() {
    let refused = "the file of a book refused with ";
    for (wrong, how, words, bytes) in [
        (
            Wrong::RowsKept,
            CLAIM,
            "8 bytes are refused with 2 too, not only 9\n".into(),
            9,
        ),
        (
            Wrong::CountsCut,
            CLAIM,
            format!("{refused}2 is refused with 3 row 0\n"),
            8,
        ),
        (
            Wrong::ZerosKept,
            CLAIM,
            format!("{refused}3 is refused with 0 row 0\n"),
            9,
        ),
        (Wrong::OneAlways, BYTE, "0 is 1 by ".into(), 8),
        (Wrong::LastCount, BYTE, "0 is 0 by ".into(), 9),
        (Wrong::BytesOfOne, SHORTEST, "0 is 12 and 0\n".into(), 1),
    ] {
        shown(wrong, how, &words, bytes);
    }
}

/// Catches marks, refusals, lengths and bytes of the output that are not compared.
#[test]
fn wrong_outputs_are_shown_by_few_bytes() {
    let (told, untold) = ("0 is 12 and 0", "0 is 0 and 12");
    for (wrong, how, words, bytes) in [
        (Wrong::NoMark, SHORTEST, "4 is 0 and 1\n", 8),
        (Wrong::MarkOfOne, SHORTEST, "4 is 1 and 0\n", 0),
        (Wrong::MarkOfOthers, CLAIM, "a refused book has length ", 24),
        (Wrong::MarkOfTwelve, SHORTEST, "4 is 1 and 0\n", 9),
        (Wrong::TwelveOfOne, SHORTEST, "0 is 12 and 0\n", 0),
        (
            Wrong::TwelveOfAccepted,
            SHORTEST,
            "0 is 12 and 0, entry 4 is 0 and 1\n",
            8,
        ),
        (Wrong::Twelve(1), SHORTEST, untold, 9),
        (Wrong::Twelve(-1), SHORTEST, told, 24),
        (Wrong::TwelveOfBook, SHORTEST, told, 40),
        (Wrong::LengthKept, SHORTEST, "3 is 8 and 0\n", 9),
        (Wrong::RefusedWrites, BYTE, "0 is ", 9),
        (Wrong::Truncated, SHORTEST, untold, 9),
        (Wrong::Cleared, BYTE, "0 is 0 by ", 0),
        (Wrong::PastTheEnd, BYTE, "0 is ", 0),
        (Wrong::RowTold, SHORTEST, "1 is 1 and 0\n", 40),
        (Wrong::OwnRefusal, SHORTEST, "0 is 1 and 0\n", 0),
    ] {
        shown(wrong, how, words, bytes);
    }
}

/// Catches claims that are not sampled: two calculations have the same wrong reading, and no
/// figure differs.
#[test]
fn the_claims_alone_find_what_two_calculations_have_in_common() {
    let refused = "shortest: the file of a book refused with ";
    let marked = "shortest: a refused book has length 0 and mark 1";
    for (wrong, words) in [
        (Wrong::FirstClass, refused),
        (
            Wrong::ClassBefore,
            "shortest: given once more, the file changes",
        ),
        (Wrong::LastBad, refused),
        (Wrong::PlaceInClass, refused),
        (Wrong::CountKept, refused),
        (Wrong::OthersKept, refused),
        (
            Wrong::NotesSkipped,
            "shortest: the file of a book refused with 15 is ",
        ),
        (
            Wrong::RowsKept,
            "shortest: 8 bytes are refused with 2 too, not only ",
        ),
        (
            Wrong::CountsCut,
            "shortest: the file of a book refused with 2 is ",
        ),
        (
            Wrong::ZerosKept,
            "shortest: the file of a book refused with 3 is ",
        ),
        (
            Wrong::BytesOfOne,
            "shortest: 0 bytes are refused with 1 too, not only ",
        ),
        (
            Wrong::NoMark,
            "shortest: an accepted book has length 0 and mark 0",
        ),
        (Wrong::MarkOfOne, marked),
        (
            Wrong::MarkOfOthers,
            "shortest: a refused book has length 24 and mark 1",
        ),
        (
            Wrong::OwnRefusal,
            "shortest: with room for the whole book, ",
        ),
    ] {
        let [one, other] = ["one", "another"].map(|name| Misread { name, wrong });
        let cases = (0..3_000).map(|number| Case::new(1, number));
        let mut found = cases.filter_map(|case| Some((laws::broken(&one, &case)?, case)));
        let (told, case) = found
            .find(|(told, _)| told.starts_with(words))
            .unwrap_or_else(|| panic!("{wrong:?} is not found: {words}"));
        assert_eq!(check::difference(&one, &other, &case), None, "{told}");
    }
}
