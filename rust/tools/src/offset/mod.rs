//! `offset`: a book without the swap legs that offset each other.

mod doubt;

use crate::cli::{no, print, Args, Choice, Command, Outcome, Part, Value};
use crate::files::{apart, input};
use crate::load::{read_book, Given};
use crate::report::explain;
use crate::text::whole;
use crate::written::{self, apart_from_line, Out};
pub use doubt::{fit, pairs};

pub const COMMAND: Command = Command {
    name: "offset",
    brief: "a book of swap legs without the pairs that offset each other",
    forms: &["BOOK OUT [--pairs] [--csv]"],
    about: &[
        Part::Text(
            "Writes the book without its offsetting swap legs: government rows of interest, \
             taken in their order, each with the first later one that is still there and fits \
             it. Two legs fit when they are of one currency, with equal amounts on opposite \
             sides, coupons at most 15 basis points apart, and",
        ),
        Part::Words(&[
            ("days of the nearer leg", "days apart, at most"),
            ("under 30", "0"),
            ("30 to 360", "7"),
            ("over 360", "30"),
        ]),
        Part::Text(
            "All other rows stay, in order; issue numbers are not looked at. Keep the legs of \
             one reference rate in a book of their own: the rows do not name it. What is left \
             out depends on the order of the rows, and a charge may rise by it. Where legs \
             carry issue numbers, net first, or do both with market-risk net --offset. The \
             written book is a book like others: charge it with market-risk report, show it \
             with market-risk unpack.",
        ),
        Part::Text(
            "Nothing is written when the book is refused. The written book is the proved \
             library's. Its legs are offset here once more, and the command fails, and writes \
             nothing, if another book is left.",
        ),
    ],
    options: &[
        Choice::flag(
            "--pairs",
            "print how many pairs were left out, and how many rows are left. Not with an OUT \
             that is standard output, where the book goes",
        ),
        written::CSV,
    ],
    operands: Some(Value::File("BOOK")),
    run,
};

/// The library's book, held to the rows, and the pairs that it is without; or why there is none.
fn offset(given: &Given) -> Result<(Vec<u8>, usize), String> {
    let left = market_risk::offset_book(&given.bytes);
    let left = left.map_err(|refusal| explain(given, &refusal))?;
    let pairs = pairs(&given.bytes, &left)?;
    Ok((left, pairs))
}

/// The library's book without its offsetting legs, held to the rows; or why there is none.
pub fn left(given: &Given) -> Result<Vec<u8>, String> {
    offset(given).map(|(left, _)| left)
}

/// The line of the pairs among so many rows, which are called so.
pub fn pairs_line(pairs: usize, rows: usize, called: &str) -> String {
    let [pairs, left, rows] = [pairs, rows - 2 * pairs, rows].map(|count| whole(count as u64));
    format!("pairs {pairs}, which leave {left} of {rows} {called}\n")
}

fn run(args: &Args) -> Outcome {
    let [from, to] = args.files()?;
    let wanted = args.flag("--pairs");
    apart_from_line(to, wanted.then_some("offset: --pairs"), "written")?;
    apart(to, &[from])?;
    let given = read_book(from)?;
    let (left, pairs) = offset(&given).map_err(|why| no(format!("{}: {why}", input(from))))?;
    Out::new(args, to).write(&left)?;
    match wanted {
        true => {
            let rows = given.bytes.len().saturating_sub(8) / 16;
            print(&pairs_line(pairs, rows, "rows"))
        }
        false => Ok(()),
    }
}
