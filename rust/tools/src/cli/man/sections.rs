//! What the man page says beside the commands.

use crate::cli::Part;
use books::csv::HEADER;

/// The day of the last change to these sections.
pub const DATE: &str = "2026-11-17";

pub const NAME: &[Part] = &[Part::Text(
    "market-risk - charges for standardised market risk, by a proved library",
)];

pub const SYNOPSIS: &[Part] = &[Part::Lines(&[
    "market-risk COMMAND [OPTION]... [FILE]...",
    "market-risk help [COMMAND]",
    "market-risk --version",
])];

pub const DESCRIPTION: &[Part] = &[Part::Text(
    "Takes books as CSV text or packed, prints and draws their charges and ladders, nets and offsets \
     them, and holds the library to a second calculation. What is printed is the proved library's; commands that print \
     its figures calculate them once more and fail where they differ.",
)];

pub const CSV: &[Part] = &[
    Part::Text("A book as text has a line with the names of its columns,"),
    Part::Lines(&[HEADER]),
    Part::Text(
        "and below it a line for each row: a class, the currency, market or commodity, a kind, days \
         to maturity, the coupon in basis points, an issue number or 0, and an amount in thousands, \
         long or short. All but class and kind are whole numbers. Columns may stand in any order, and \
         commas, semicolons or tabs between them. The command pack has more.",
    ),
];

pub const FILES: &[Part] = &[Part::Words(&[
    (
        "BOOK",
        "a book: eight bytes of contents, and 16 bytes for each row; or its text, told apart by content",
    ),
    ("CSV", "a book or an option table as text"),
    (
        "TABLE",
        "an option table, as bytes or text; with --table the weights and per cents of an interest \
         ladder, 36 bytes or text, as the command table tells",
    ),
])];

/// What each command does, and the command. The book is the one of the repository's samples/keyed.csv.
pub const EXAMPLES: &[(&str, &str)] = &[
    (
        "A spreadsheet's text into a book:",
        "market-risk pack keyed.csv keyed.book",
    ),
    (
        "What it costs, with the interest charges of each currency:",
        "market-risk report keyed.book --currencies",
    ),
    (
        "How that comes about in currency 7:",
        "market-risk ladder keyed.book --currency=7",
    ),
    (
        "The least short amount in band 5 that brings currency 7 to at most 420:",
        "market-risk least-trade keyed.book --currency=7 --band=5 --side=short --limit=420",
    ),
    (
        "The book once more without what offsets itself, through a pipe:",
        "market-risk net --offset keyed.book - | market-risk report -",
    ),
];

pub const SEE_ALSO: &[Part] = &[Part::Text(
    "The C interface is in market_risk.h; pkg-config market_risk gives what a compiler needs for it. \
     The method is in the repository's docs/METHOD.md.",
)];
