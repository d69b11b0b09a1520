//! The ladders and their options, as the help tells of them.

use crate::cli::{Choice, Part};
use crate::forms;

/// The text of the help.
pub const ABOUT: &[Part] = &[
    Part::Text(
        "Prints the ladders of all currencies that have interest rows and of all commodities that \
         have rows, or those that the options name, one below the other, in at most 100 columns, \
         so that each can be checked by hand: for each band its weight, longs, shorts, match and \
         net; of a currency then the longs and shorts of each zone, and in each match between \
         zones which of the two is long and which short; then each step with its match, per cent \
         and disallowance; the residual and the charge. Last come the lines by which it adds up:",
    ),
    Part::Words(&[
        (
            "currency",
            "gross is twice the matches plus the residual, and weighted longs plus weighted \
             shorts; the residual is the difference of these; the charge is at least the \
             residual, and twice the charge at most gross plus residual",
        ),
        (
            "commodity",
            "gross is twice the matches plus the residual, and longs plus shorts; the residual is \
             the difference of these; what is carried, step by step; the charge is 1.5% of gross, \
             13.5% of the residual and 0.6% of what is carried",
        ),
    ]),
    Part::Text(
        "Rows of kind floating stand in the band of their next fixing, as with a coupon of 3% or \
         more, whatever their final maturity.",
    ),
    Part::Text(
        "Amounts are in thousands, weighted positions and charges in currency units. Matches, \
         residual, what is carried and charge are the proved library's. The rows are added up \
         here, by bands for the tables and one by one for the last lines, and the command fails \
         if they do not lead to the library's figures or if a line does not hold.",
    ),
];

/// Its options. At most one of the first four may be given.
pub const OPTIONS: &[Choice] = &[
    Choice::number(
        "--currency",
        "N",
        "draws the ladder of this currency alone, 0 to 31, whether it has rows or not",
    ),
    Choice::number(
        "--commodity",
        "N",
        "draws the ladder of this commodity alone, 0 to 31, whether it has rows or not",
    ),
    Choice::flag("--currencies", "draws those of currencies alone"),
    Choice::flag("--commodities", "draws those of commodities alone"),
    Choice::file(
        "--table",
        "FILE",
        "draws the ladders of currencies under this table, 36 bytes or text as market-risk table \
         --help tells, in the place of document 01's; where it is another, it is shown above the \
         ladders. A refused table is told with the conditions that it breaks, and the exit status \
         is 1",
    ),
    Choice::flag(
        "--hide-empty",
        "leaves bands out that have no positions; of a commodity, those into which nothing is \
         carried either",
    ),
    Choice::flag(
        "--svg",
        "prints the ladder of one currency or commodity as a picture, an SVG file, as it stands \
         on the page of market-risk html",
    ),
    forms::JSON,
    forms::CSV,
];
