//! Wrong readings of the dearest book that two calculations have in common: no figure differs, and the
//! claims alone must find each.

use super::asked::Asked;
use super::case::Case;
use super::dearest_readings::Wrong;
use super::misread_dearest::Misread;
use super::{check, dearest_laws};

/// The first claim that a wrong reading breaks, of those that are told so, where a second calculation has
/// the same reading and no figure differs.
fn in_common(wrong: Wrong, fits: impl Fn(&str) -> bool) {
    let [one, other] = ["one", "another"].map(|name| Misread { name, wrong });
    let cases = (0..3_000).map(|number| Case::new(1, number));
    let mut found = cases.filter_map(|case| Some((dearest_laws::broken(&one, &case)?, case)));
    let found = found.find(|(told, _)| fits(told));
    let (told, case) = found.unwrap_or_else(|| panic!("{wrong:?} is not found"));
    assert_eq!(check::difference(&one, &other, &case), None, "{told}");
}

/// Catches a bound that is not sampled: each of these books is charged what is told of it.
#[test]
fn dearer_books_alone_find_what_two_calculations_have_in_common() {
    for wrong in [
        Wrong::Government,
        Wrong::Qualifying,
        Wrong::Floating,
        Wrong::NearerBand,
        Wrong::Coupon300,
        Wrong::Shares,
        Wrong::Commodities,
        Wrong::HalfShort,
        Wrong::OneLess,
    ] {
        in_common(wrong, |told| told.contains(", more than "));
    }
}

/// Catches other claims that are not sampled.
#[test]
fn the_claims_alone_find_what_two_calculations_have_in_common() {
    for (wrong, begins, ends) in [
        (Wrong::OneRowFewer, "the book of ", ""),
        (Wrong::OneMore, "in the book of at most ", ""),
        (Wrong::OneMore, "the book is refused with 9", ""),
        (Wrong::OneLess, "the book is refused with 8", ""),
        (Wrong::WithoutSpecific, "the book costs ", " is told"),
        (Wrong::WithoutGeneral, "the book costs ", " is told"),
        (Wrong::CommodityRate, "the book costs ", " is told"),
        (Wrong::OneRowTotal, "the book costs ", " is told"),
        (Wrong::NarrowTotal, "the book costs ", " is told"),
        (
            Wrong::FullRefused,
            "with room for them, 4000 rows of ",
            " give 22",
        ),
        (
            Wrong::LargestRefused,
            "with room for them, ",
            " rows of 1000000000 give 22",
        ),
        (
            Wrong::NoRowsRefused,
            "with room for them, 0 rows of ",
            " give 22",
        ),
        (Wrong::ZeroTaken, "", " rows of 0 give 0, not 22"),
        (Wrong::MoreTaken, "4001 rows of ", " give 0, not 22"),
        (Wrong::NarrowRows, "65536 rows of ", " give 0, not 22"),
        (
            Wrong::NarrowAmount,
            "",
            " rows of 4294967303 give 0, not 22",
        ),
        (Wrong::Twelve(1), "with room for them, ", " give 12"),
    ] {
        let begins = format!("dearest: {begins}");
        in_common(wrong, |told| {
            told.starts_with(&begins) && told.ends_with(ends)
        });
    }
}

/// A book without rows.
const NONE: Asked = Asked {
    rows: 0,
    most: 1,
    room: 8,
};

/// Catches a claim that is sampled on first books alone, or on dear ones alone.
#[test]
fn first_books_and_dear_ones_are_both_held_to_the_most() {
    let name = "a wrong reading";
    let wrong = Misread {
        name,
        wrong: Wrong::Floating,
    };
    let found = |change: fn(Case) -> Case| {
        let mut cases = (0..3_000).map(|number| change(Case::new(1, number)));
        cases.any(|case| {
            dearest_laws::broken(&wrong, &case).is_some_and(|told| told.contains("more than"))
        })
    };
    assert!(found(|case| Case {
        dearest: NONE,
        ..case
    }));
    assert!(found(|case| Case { a: vec![], ..case }));
    assert!(!found(|case| Case {
        a: vec![],
        dearest: NONE,
        ..case
    }));
}
