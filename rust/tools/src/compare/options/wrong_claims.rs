//! Wrong readings of options that two calculations have in common: no figure differs, and the claims alone
//! must find each; and those that no claim finds.

use super::super::check;
use super::broken;
use super::misread::Misread;
use super::reading_fields::Field;
use super::readings::Wrong;
use super::wrong::alone;

/// Holds a wrong reading to a claim that it breaks, told so, where a second calculation has the same
/// reading and no figure differs.
fn in_common(wrong: Wrong, begins: &str, ends: &str) {
    let [one, other] = ["one", "another"].map(|name| Misread { name, wrong });
    let cases = (0..3_000).map(|number| alone(1, number));
    let mut found = cases.filter_map(|case| Some((broken(&one, &case)?, case)));
    let begins = format!("options: {begins}");
    let found = found.find(|(told, _)| told.starts_with(&begins) && told.contains(ends));
    let (told, case) = found.unwrap_or_else(|| panic!("{wrong:?} is not found"));
    assert_eq!(check::difference(&one, &other, &case), None, "{told}");
}

/// Catches rows that are not held to their options.
#[test]
fn rows_are_held_to_their_options() {
    for wrong in [
        Wrong::RoundedDown,
        Wrong::Nearest,
        Wrong::OneTooHigh,
        Wrong::NarrowProduct,
    ] {
        in_common(wrong, "row ", " ten-thousandths");
    }
    for right in 0..4 {
        in_common(Wrong::Side(right), "row ", " is on the other side");
    }
    for wrong in [
        Wrong::Reversed,
        Wrong::ByGroup,
        Wrong::OtherGroup,
        Wrong::OtherKind,
        Wrong::OtherDays,
        Wrong::CouponSet,
        Wrong::IssueSet,
    ] {
        in_common(wrong, "row ", " has other fields");
    }
    in_common(Wrong::LongsFirst, "row ", " is on the other side");
    in_common(Wrong::RowAtZero, "", " options with a delta have ");
}

/// Catches a book that is not charged, gamma and vega that are not added group by group, and rights that
/// are not exchanged.
#[test]
fn figures_are_held_to_each_other() {
    for (wrong, begins, ends) in [
        (Wrong::GammaInTotal, "total of the book is ", " is told"),
        (Wrong::VegaInTotal, "total of the book is ", " is told"),
        (Wrong::GammaOfGroups, "gamma of ", ", group by group "),
        (Wrong::GammaOfClasses, "gamma of ", ", group by group "),
        (Wrong::VegaOfGroups, "vega of ", ", group by group "),
        (Wrong::VegaOfClasses, "vega of ", ", group by group "),
        (Wrong::GammaByCall, "with calls for puts, gamma of ", ""),
        (Wrong::VegaByCall, "with calls for puts, vega of ", ""),
        (Wrong::NegativeAlone, "with bought for sold, vega of ", ""),
        (Wrong::PositiveAlone, "with bought for sold, vega of ", ""),
    ] {
        in_common(wrong, begins, ends);
    }
}

/// Catches tables that are not joined, or not put together.
#[test]
fn two_tables_cost_at_most_the_two() {
    in_common(Wrong::DearMany, "joined, total is ", ", more than ");
    in_common(
        Wrong::HalvesDown,
        "together, gamma of commodities is ",
        ", more than ",
    );
    in_common(Wrong::NarrowGamma, "together, gamma of ", ", more than ");
    in_common(Wrong::NarrowVega, "together, vega of ", ", more than ");
    in_common(
        Wrong::RowAtZero,
        "the books of two tables cannot be joined",
        "",
    );
}

/// Catches refusals that are not held to the table.
#[test]
fn refusals_are_held_to_the_table() {
    let gives = |number: u64| format!("with room for it, a table gives {number} in row ");
    let (taken, long, bad) = (gives(0), gives(16), gives(17));
    for (wrong, begins, ends) in [
        (Wrong::Most(Field::Amount, 1), &taken, "not 17 in row "),
        (Wrong::Most(Field::Delta, 1), &taken, "not 17 in row "),
        (Wrong::Most(Field::Right, 1), &taken, "not 17 in row "),
        (Wrong::Cut(Field::Group, 5), &taken, "not 17 in row "),
        (Wrong::Most(Field::Days, -1), &bad, "not 0 in row "),
        (Wrong::Least(Field::Delta, 1), &bad, "not 0 in row "),
        (Wrong::FullRefused, &long, "not 0 in row "),
        (Wrong::NoneRefused, &long, "not 0 in row "),
        (Wrong::OneMoreTaken, &taken, "not 16 in row "),
        (Wrong::LengthAlone, &taken, "not 16 in row "),
        (Wrong::LongerTaken, &taken, "not 16 in row "),
        (Wrong::NarrowCount, &taken, "not 16 in row "),
        (Wrong::SeventeenForLength, &bad, "not 16 in row "),
        (Wrong::SeventeenFirst, &bad, "not 16 in row "),
        (Wrong::RowFromOne, &bad, "not 17 in row "),
        (Wrong::RowOfClass, &bad, "not 17 in row "),
        (Wrong::LastRow, &bad, "not 17 in row "),
        (Wrong::NoRow, &bad, "not 17 in row "),
        (Wrong::Twelve(1), &gives(12), "not 0 in row "),
    ] {
        in_common(wrong, begins, ends);
    }
}

/// What no claim finds, only another calculation: rates, moves, and what is left out of every sum alike.
#[test]
fn what_is_wrong_in_every_table_alike_breaks_no_claim() {
    for wrong in [
        Wrong::EachRounded,
        Wrong::PositiveCharged,
        Wrong::SoldAlone,
        Wrong::Moves(3, 15),
        Wrong::Moves(4, 8),
        Wrong::NoGammaAtZero,
        Wrong::WithoutSigns,
        Wrong::WholeVolatility,
        Wrong::WholeThousands,
        Wrong::NoVegaAtZero,
    ] {
        let name = "a wrong reading";
        let mut cases = (0..1_000).map(|number| alone(1, number));
        assert!(cases.all(|case| broken(&Misread { name, wrong }, &case).is_none()));
    }
}
