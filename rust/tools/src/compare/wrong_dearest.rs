//! Wrong readings of the dearest book: a run must find each, and show few rows and a small amount for it.

use super::case::Case;
use super::dearest_laws;
use super::dearest_readings::Wrong;
use super::misread_dearest::Misread;
use super::wrong_net::run;

/// How a result that differs is told, a byte of the output, and a claim.
const ENTRY: &str = "dearest by a wrong reading and by the second calculation: entry ";
const BYTE: &str = "dearest: output byte ";
const CLAIM: &str = "dearest: ";

/// What a run tells of a wrong reading, which it must find: what differs, and what was asked for.
fn told(wrong: Wrong) -> (String, [usize; 3]) {
    let name = "a wrong reading";
    let Err(failure) = run(&Misread { name, wrong }).outcome() else {
        panic!("{wrong:?} is not found");
    };
    assert_eq!(failure.status, 1);
    let message = failure.message;
    assert!(message.contains("\nbook B, 0 bytes: "), "{message}");
    let mut lines = message.lines();
    let what = lines.nth(1).unwrap().to_string();
    let asked = lines.last().unwrap();
    let numbers = asked.split(|letter: char| !letter.is_ascii_digit());
    let numbers: Vec<usize> = numbers.filter_map(|digits| digits.parse().ok()).collect();
    let asked = numbers.try_into().unwrap_or_else(|_| panic!("{message}"));
    (what, asked)
}

/// Holds what is told to its beginning, and to the most rows and the largest amount that are
/// wanted to show it.
fn shown(wrong: Wrong, how: &str, words: &str, [rows, most]: [usize; 2]) {
    let (what, asked) = told(wrong);
    assert!(
        what.starts_with(&format!("{how}{words}")),
        "{wrong:?}: {what}"
    );
    assert!(
        asked[0] <= rows && asked[1] <= most,
        "{wrong:?}: {asked:?}, {what}"
    );
}

/// Catches wrong readings that are found because the reading of the others is wrong as well.
#[test]
fn the_right_reading_differs_nowhere() {
    let right = Misread {
        name: "the right reading",
        wrong: Wrong::Nothing,
    };
    let run = run(&right);
    let mut cases = (0..3_000).map(|number| Case::new(1, number));
    assert!(cases.all(|case| run.difference(&case).is_none()));
}

/// Catches numbers at their limits that are not tried, on either side of them. Without room what is not
/// refused with 22 is refused with 12.
#[test]
fn wrong_limits_are_shown_at_the_limit() {
    let (taken, refused) = ("0 is 12 and 22", "0 is 22 and 12");
    let cut = (1 << 32) + 1;
    for (wrong, words, limits) in [
        (Wrong::FullRefused, refused, [4_000, 1]),
        (Wrong::NoRowsRefused, refused, [0, 1]),
        (Wrong::ZeroTaken, taken, [0, 0]),
        (Wrong::NarrowRows, taken, [65_536, 1]),
        (Wrong::NarrowAmount, taken, [0, cut]),
        (Wrong::TwelveFirst, taken, [0, 0]),
    ] {
        shown(wrong, ENTRY, words, limits);
    }
    let words = "4001 rows of 1 give 0, not 22";
    shown(Wrong::MoreTaken, CLAIM, words, [4_001, 1]);
    // A first book that has the largest amount shows it too.
    let words = "with room for them, 1 rows of 1000000000 give 22";
    shown(Wrong::LargestRefused, CLAIM, words, [0, 0]);
}

/// Catches outputs that are not compared: what a refusal must leave alone, 12 one byte off, and the bytes
/// past the book.
#[test]
fn wrong_outputs_are_shown_by_few_bytes() {
    for (wrong, how, words) in [
        (Wrong::TotalKept, ENTRY, "4 is 205000 and 0"),
        (Wrong::LengthKept, ENTRY, "3 is 8 and 0"),
        (
            Wrong::Twelve(1),
            CLAIM,
            "with room for them, 0 rows of 1 give 12",
        ),
        (
            Wrong::Twelve(-1),
            ENTRY,
            "0 is 0 and 12, entry 3 is 8 and 0",
        ),
        (Wrong::Cleared, BYTE, "8 is 0 by "),
        (Wrong::PastTheEnd, BYTE, "8 is "),
        (Wrong::RefusedWrites, BYTE, "0 is "),
        (Wrong::Truncated, BYTE, "0 is 0 by "),
        (Wrong::RowTold, ENTRY, "1 is 1 and 0"),
    ] {
        shown(wrong, how, words, [1, 1]);
    }
}

/// Catches a book or a total that is not compared. The rows are charged wrongly by the figure that is
/// told, or by the claim that nothing costs more.
#[test]
fn wrong_books_are_shown_by_few_rows() {
    for (wrong, rate) in [
        (Wrong::Government, 125_000),
        (Wrong::Qualifying, 141_000),
        (Wrong::Floating, 23_000),
        (Wrong::NearerBand, 160_000),
        (Wrong::Coupon300, 140_000),
        (Wrong::Shares, 160_000),
        (Wrong::Commodities, 186_000),
    ] {
        let (what, asked) = told(wrong);
        let entry = format!("{ENTRY}4 is {rate} and 205000");
        let claim = format!("more than {rate}");
        let fits = what == entry || what.starts_with(CLAIM) && what.ends_with(&claim);
        assert!(fits, "{wrong:?}: {what}");
        assert!(asked[0] <= 1 && asked[1] <= 1, "{wrong:?}: {asked:?}");
    }
    for (wrong, how, words, limits) in [
        (
            Wrong::OneRowFewer,
            CLAIM,
            "the book of 1 rows has 0",
            [1, 1],
        ),
        (
            Wrong::OneMore,
            CLAIM,
            "in the book of at most 1 stands 2",
            [1, 1],
        ),
        (Wrong::OneLess, CLAIM, "the book is refused with 8", [1, 1]),
        (
            Wrong::WithoutSpecific,
            CLAIM,
            "the book costs 205000, and 125000 is told",
            [1, 1],
        ),
        (
            Wrong::WithoutGeneral,
            CLAIM,
            "the book costs 205000, and 80000 is told",
            [1, 1],
        ),
        (
            Wrong::CommodityRate,
            CLAIM,
            "the book costs 205000, and 186000 is told",
            [1, 1],
        ),
        (
            Wrong::OneRowTotal,
            CLAIM,
            "the book costs 0, and 205000 is told",
            [0, 1],
        ),
    ] {
        shown(wrong, how, words, limits);
    }
    // 2^32 mils are 20,952 units of amount: of a first book, or of what is asked for.
    let (what, asked) = told(Wrong::NarrowTotal);
    let units = match what.strip_prefix("dearest: 1 rows of at most ") {
        Some(first) => first.split(' ').next().unwrap().parse().unwrap(),
        None => asked[0] * asked[1],
    };
    assert!((20_952..42_000).contains(&units), "{what}: {asked:?}");
    // Two rows that are matched.
    let (what, asked) = told(Wrong::HalfShort);
    assert!(asked[0] <= 2 && asked[1] <= 1, "{asked:?}: {what}");
    assert!(what.starts_with(CLAIM) || what.starts_with(ENTRY), "{what}");
}

/// What costs as much is as dear, and no claim is broken; but which book is written is fixed, and a byte
/// tells it.
#[test]
fn other_books_that_are_as_dear_are_told_by_their_bytes() {
    for (wrong, words) in [
        // The second row is in currency 1; a row's long amount; the second row's issue.
        (Wrong::Currencies, "24 is 1 by a wrong reading and 0 by "),
        (Wrong::AllShort, "16 is 0 by a wrong reading and 1 by "),
        (Wrong::Issues, "30 is 1 by a wrong reading and 0 by "),
    ] {
        shown(wrong, BYTE, words, [2, 1]);
        let reading = Misread {
            name: "a wrong reading",
            wrong,
        };
        let mut cases = (0..3_000).map(|number| Case::new(1, number));
        assert!(cases.all(|case| dearest_laws::broken(&reading, &case).is_none()));
    }
}
