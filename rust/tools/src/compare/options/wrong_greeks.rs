//! Wrong readings of gamma and vega: one option or two show each.

use super::readings::Wrong;
use super::wrong::{shown, CLAIM, ENTRY};

/// Catches a gamma that is not compared, in each class and on each side.
#[test]
fn wrong_gammas_are_shown_by_few_options() {
    for (wrong, how, words, options) in [
        (
            Wrong::GammaByCall,
            CLAIM,
            "with calls for puts, gamma of ",
            1,
        ),
        // Two options of 112.5 mils, sold, or half of one.
        (Wrong::EachRounded, ENTRY, "6 is ", 2),
        (Wrong::HalvesDown, ENTRY, "6 is 112 and 113", 1),
        (Wrong::PositiveCharged, ENTRY, "4 is 32 and 0", 1),
        (Wrong::SoldAlone, ENTRY, "4 is 32 and 0", 2),
        (Wrong::Moves(2, 15), ENTRY, "4 is 113 and 32", 1),
        (Wrong::Moves(3, 15), ENTRY, "5 is 113 and 32", 1),
        (Wrong::Moves(4, 8), ENTRY, "6 is 32 and 113", 1),
        (Wrong::NoGammaAtZero, ENTRY, "4 is 0 and 32", 1),
        (
            Wrong::GammaOfGroups,
            CLAIM,
            "gamma of equity is 0, group by group 32",
            2,
        ),
        (Wrong::GammaOfClasses, CLAIM, "gamma of equity is ", 2),
        (Wrong::NarrowGamma, ENTRY, "4 is ", 1),
    ] {
        shown(wrong, how, words, [options, 0]);
    }
}

/// The same of vega.
#[test]
fn wrong_vegas_are_shown_by_few_options() {
    for (wrong, how, words, options) in [
        (Wrong::VegaByCall, CLAIM, "with calls for puts, vega of ", 2),
        (
            Wrong::NegativeAlone,
            CLAIM,
            "with bought for sold, vega of ",
            1,
        ),
        (
            Wrong::PositiveAlone,
            CLAIM,
            "with bought for sold, vega of ",
            1,
        ),
        (Wrong::WithoutSigns, ENTRY, "7 is 5000 and 0", 2),
        (Wrong::WholeVolatility, ENTRY, "7 is 10000 and 2500", 1),
        (Wrong::WholeThousands, ENTRY, "7 is 1000000 and 2500", 1),
        (Wrong::NoVegaAtZero, ENTRY, "7 is 0 and 2500", 1),
        (
            Wrong::VegaOfGroups,
            CLAIM,
            "vega of equity is 0, group by group 5000",
            2,
        ),
        (Wrong::VegaOfClasses, CLAIM, "vega of equity is ", 2),
        (Wrong::NarrowVega, ENTRY, "7 is ", 2),
    ] {
        shown(wrong, how, words, [options, 0]);
    }
}

/// Catches a total that is not held to the book.
#[test]
fn wrong_totals_are_shown_by_one_option() {
    for (wrong, words) in [
        (Wrong::GammaInTotal, "with bought for sold, total is 32"),
        (
            Wrong::VegaInTotal,
            "total of the book is 0, and 2500 is told",
        ),
    ] {
        shown(wrong, CLAIM, words, [1, 0]);
    }
}
