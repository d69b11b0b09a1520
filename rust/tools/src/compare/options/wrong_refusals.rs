//! Wrong readings of what an option table may hold, and of the order of refusals.

use super::reading_fields::Field;
use super::readings::Wrong;
use super::wrong::{shown, CLAIM, ENTRY};

/// What is not refused with 17, in an output without room; and what is, with room or without.
const TAKEN: &str = "0 is 12 and 17";
const REFUSED: &str = "0 is 17 and 12";
const REFUSED_WITH_ROOM: &str = "with room for it, a table gives 17 in row 0, not 0";

/// Catches an end of a field that is not tried one past it.
#[test]
fn ranges_that_are_too_wide_are_shown_by_one_option() {
    for wrong in [
        Wrong::Least(Field::Class, -1),
        Wrong::Most(Field::Class, 1),
        Wrong::Most(Field::Group, 1),
        Wrong::Most(Field::Right, 1),
        Wrong::Least(Field::Kind, -1),
        Wrong::Most(Field::Kind, 1),
        Wrong::Most(Field::NoKind, 1),
        Wrong::Least(Field::Amount, -1),
        Wrong::Most(Field::Amount, 1),
        Wrong::Most(Field::Delta, 1),
        Wrong::Most(Field::Days, 1),
        Wrong::Most(Field::NoDays, 1),
    ] {
        shown(wrong, ENTRY, TAKEN, [1, 0]);
    }
}

/// Catches an end of a field that is not tried. Which table shows it is left to chance.
#[test]
fn ranges_that_are_too_narrow_are_shown_by_one_option() {
    let first = |wrong| shown(wrong, ENTRY, REFUSED, [1, 0]);
    let other = |wrong| shown(wrong, CLAIM, REFUSED_WITH_ROOM, [1, 1]);
    first(Wrong::Least(Field::Class, 1));
    first(Wrong::Most(Field::Class, -1));
    first(Wrong::Least(Field::Group, 1));
    first(Wrong::Most(Field::Group, -1));
    first(Wrong::Least(Field::Right, 1));
    other(Wrong::Most(Field::Right, -1));
    other(Wrong::Least(Field::Kind, 1));
    other(Wrong::Most(Field::Kind, -1));
    first(Wrong::Most(Field::NoKind, -1));
    first(Wrong::Least(Field::Amount, 1));
    other(Wrong::Most(Field::Amount, -1));
    other(Wrong::Least(Field::Delta, 1));
    first(Wrong::Most(Field::Delta, -1));
    other(Wrong::Least(Field::Gamma, 1));
    first(Wrong::Most(Field::Gamma, -1));
    first(Wrong::Least(Field::Vega, 1));
    first(Wrong::Most(Field::Vega, -1));
    first(Wrong::Least(Field::Volatility, 1));
    other(Wrong::Most(Field::Volatility, -1));
    other(Wrong::Least(Field::Days, 1));
    other(Wrong::Most(Field::Days, -1));
    first(Wrong::Most(Field::NoDays, -1));
}

/// Catches numbers that never need all their bits.
#[test]
fn fields_of_fewer_bits_are_shown_by_one_option() {
    let days = "row 0 of commodity has other fields";
    for (field, bits, how, words) in [
        (Field::Class, 3, ENTRY, TAKEN),
        (Field::Group, 5, ENTRY, TAKEN),
        (Field::Group, 7, ENTRY, TAKEN),
        (Field::Right, 2, ENTRY, TAKEN),
        (Field::Kind, 2, ENTRY, TAKEN),
        (Field::Kind, 7, ENTRY, TAKEN),
        (Field::Amount, 8, ENTRY, REFUSED),
        (Field::Amount, 16, ENTRY, REFUSED),
        (Field::Amount, 24, ENTRY, TAKEN),
        (Field::Amount, 31, ENTRY, TAKEN),
        (Field::Delta, 8, CLAIM, ""),
        (Field::Delta, 13, CLAIM, ""),
        (Field::Delta, 14, ENTRY, TAKEN),
        (Field::Delta, 15, ENTRY, TAKEN),
        (Field::Gamma, 8, ENTRY, "4 is 0 and 8192"),
        (Field::Gamma, 15, ENTRY, "4 is 0 and 1048576"),
        (Field::Vega, 8, ENTRY, "7 is 0 and 640000"),
        (Field::Vega, 15, ENTRY, "7 is 0 and 81920000"),
        (Field::Volatility, 8, ENTRY, "7 is 0 and 640000"),
        (Field::Volatility, 15, ENTRY, "7 is 0 and 81920000"),
        (Field::Days, 8, CLAIM, days),
        (Field::Days, 15, CLAIM, days),
    ] {
        shown(Wrong::Cut(field, bits), how, words, [1, 0]);
    }
}

/// Catches lengths and counts that are not tried at the limit, on either side of it.
#[test]
fn wrong_lengths_are_shown_at_the_limit() {
    shown(Wrong::FullRefused, ENTRY, "0 is 16 and 12", [1_000, 0]);
    shown(Wrong::OneMoreTaken, ENTRY, "0 is 12 and 16", [1_001, 0]);
    let taken = "with room for it, a table gives 0 in row 0, not 16";
    shown(Wrong::LengthAlone, CLAIM, taken, [1_000, 1]);
    shown(Wrong::NarrowCount, ENTRY, "0 is ", [20, 0]);
    shown(Wrong::LongerTaken, ENTRY, "0 is 12 and 16", [0, 0]);
    let none = "with room for it, a table gives 16 in row 0, not 0";
    shown(Wrong::NoneRefused, CLAIM, none, [0, 0]);
}

/// Catches an order of refusals, or a row, that is not compared.
#[test]
fn wrong_orders_and_rows_are_shown_by_few_options() {
    for (wrong, words, options) in [
        (Wrong::SeventeenForLength, "0 is 17 and 16", 0),
        (Wrong::SeventeenFirst, "0 is 17 and 16", 1),
        (Wrong::TwelveFirst, TAKEN, 1),
        (Wrong::RowFromOne, "1 is 1 and 0", 1),
        (Wrong::RowOfClass, "1 is 0 and 1", 2),
        (Wrong::LastRow, "1 is 1 and 0", 2),
        (Wrong::NoRow, "1 is 0 and 1", 2),
    ] {
        shown(wrong, ENTRY, words, [options, 0]);
    }
}
