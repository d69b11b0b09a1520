//! Wrong readings of the rows that options give: one option or two show each.

use super::readings::Wrong;
use super::wrong::{shown, BYTE, CLAIM, ENTRY};

/// Catches a side, an amount or a field that is not compared.
#[test]
fn wrong_rows_are_shown_by_few_options() {
    let (side, fields) = (
        "row 0 of equity is on the other side",
        "row 0 of equity has other fields",
    );
    let sold = "with bought for sold, equity general is 160000, and as they are 0";
    for (wrong, words, options) in [
        (Wrong::Side(0), side, 1),
        (Wrong::Side(1), side, 1),
        (Wrong::Side(2), sold, 2),
        (Wrong::Side(3), sold, 2),
        (
            Wrong::RoundedDown,
            "row 0 of equity is of 0 for 1 ten-thousandths",
            1,
        ),
        (
            Wrong::Nearest,
            "row 0 of equity is of 0 for 1 ten-thousandths",
            1,
        ),
        (
            Wrong::OneTooHigh,
            "row 0 of equity is of 2 for 10000 ten-thousandths",
            1,
        ),
        (Wrong::NarrowProduct, "row 0 of equity is of 1 for 42949", 1),
        (Wrong::Reversed, "row 0 of ", 2),
        (Wrong::ByGroup, fields, 2),
        (Wrong::LongsFirst, side, 2),
        (Wrong::OtherGroup, fields, 1),
        (Wrong::OtherKind, fields, 1),
        (Wrong::OtherDays, "row 0 of commodity has other fields", 1),
        (Wrong::CouponSet, fields, 1),
        (Wrong::IssueSet, fields, 1),
    ] {
        shown(wrong, CLAIM, words, [options, 0]);
    }
    let unjoined = "the books of two tables cannot be joined";
    shown(Wrong::RowAtZero, CLAIM, unjoined, [0, 1]);
}

/// Catches outputs that are not compared: 12 one byte off or by the options, what a refusal must leave
/// alone, and the bytes past the book.
#[test]
fn wrong_outputs_are_shown_by_few_options() {
    for (wrong, how, words, options) in [
        (
            Wrong::Twelve(1),
            CLAIM,
            "with room for it, a table gives 12 in row 0, not 0",
            0,
        ),
        (
            Wrong::Twelve(-1),
            ENTRY,
            "0 is 0 and 12, entry 3 is 8 and 0",
            0,
        ),
        (
            Wrong::TwelveByOptions,
            ENTRY,
            "0 is 12 and 0, entry 3 is 0 and 8",
            1,
        ),
        (
            Wrong::FiguresKept,
            ENTRY,
            "12 is 80000 and 0, entry 13 is 80000 and 0",
            1,
        ),
        (Wrong::FiguresBefore, ENTRY, "3 is 8 and 0", 1),
        (Wrong::LengthKept, ENTRY, "3 is 8 and 0", 0),
        (Wrong::RefusedWrites, BYTE, "0 is ", 0),
        (Wrong::Truncated, BYTE, "0 is 0 by ", 0),
        (Wrong::RowsBefore, BYTE, "0 is 0 by ", 1),
        (Wrong::Cleared, BYTE, "8 is 0 by ", 0),
        (Wrong::PastTheEnd, BYTE, "8 is ", 0),
    ] {
        shown(wrong, how, words, [options, 0]);
    }
}
