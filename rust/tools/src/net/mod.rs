//! `net`: the rows of one issue into one, and the swap legs of the netted rows offset.

mod count;
mod doubt;

use crate::cli::{no, print, usage, Args, Choice, Command, Failure, Outcome, Part, Value};
use crate::files::{apart, input};
use crate::load::{read_book, Given};
use crate::offset::{pairs, pairs_line};
use crate::report::explain;
use crate::text::whole;
use crate::written::{self, apart_from_line, Out};
pub use count::bound;
use doubt::{doubt, doubt_count, netted_book};
use std::path::Path;

pub const COMMAND: Command = Command {
    name: "net",
    brief: "a book with the rows of one issue made one",
    forms: &["BOOK OUT [--offset [--pairs]] [--comparisons] [--csv]"],
    about: &[
        Part::Text(
            "Writes the netted book. Within a class the rows of one issue number become one \
             row, in the place of the first, with their net on its side; an issue that nets to \
             zero is left out. Rows numbered 0 stay as they are, and one number in two classes \
             is two issues. The netted book is a book like others: charge it with market-risk \
             report, show it with market-risk unpack.",
        ),
        Part::Text(
            "Nothing is written when the book is refused, or when an issue cannot be netted:",
        ),
        Part::Words(&[
            (
                "13",
                "a row has another group, kind, days or coupon (of a floating-rate note, \
                 another final maturity) than the first row of its issue in its class; the \
                 first such row is told",
            ),
            (
                "14",
                "an issue nets to over 1,000,000,000; the first row of the earliest such issue \
                 is told",
            ),
        ]),
        Part::Text(
            "The netted book is the proved library's. Its rows are netted here once more, and \
             the command fails, and writes nothing, if they are others, or if the library made \
             another number of comparisons.",
        ),
    ],
    options: &[
        Choice::flag(
            "--offset",
            "offset the swap legs of the netted rows too, in one call: write what market-risk \
             offset would leave of the netted book. Issues come first, and the other order may \
             leave other rows: docs/ORDER.md. The rows are netted and offset here once more, \
             and nothing is written if another book is left",
        ),
        Choice::flag(
            "--pairs",
            "print how many pairs --offset left out, and how many of the netted rows are left. \
             With --offset alone, and not with an OUT that is standard output",
        ),
        Choice::flag(
            "--comparisons",
            "print how many comparisons the netting took, and the most that a book of so many \
             rows can take, n(n - 1)/2 of n rows. In each class each row that has an issue \
             number is compared with the first rows of the issues before it, in order, up to \
             the one of its own issue. Not with an OUT that is standard output, where the \
             netted book goes",
        ),
        written::CSV,
    ],
    operands: Some(Value::File("BOOK")),
    run,
};

/// What the library has written, held to the rows.
struct Written {
    book: Vec<u8>,
    comparisons: u64,
    /// With `--offset`, how many rows there are when they are netted, and how many pairs are not left.
    offset: Option<[usize; 2]>,
}

/// The netted rows and the pairs among them of which the library has left this book.
fn offset_of(bytes: &[u8], left: &[u8]) -> Result<[usize; 2], String> {
    let netted = netted_book(bytes)?;
    let bytes = netted.encode().expect("no more rows than before");
    Ok([netted.rows(), pairs(&bytes, left)?])
}

/// The netted book and its comparisons, with the legs offset where that is asked for; or why there
/// is none.
fn written(given: &Given, offset: bool) -> Result<Written, String> {
    let bytes = &given.bytes[..];
    let mut book = vec![0; bytes.len()];
    let call = if offset {
        market_risk::net_and_offset
    } else {
        market_risk::net
    };
    let done = call(bytes, &mut book).map_err(|refusal| explain(given, &refusal))?;
    book.truncate(done.length);
    let offset = match offset {
        true => Some(offset_of(bytes, &book)?),
        false => doubt(bytes, &book).map_or(Ok(None), Err)?,
    };
    doubt_count(bytes, done.comparisons).map_or(Ok(()), Err)?;
    Ok(Written {
        book,
        comparisons: done.comparisons,
        offset,
    })
}

/// The netted book, with the legs offset where that is asked for, held to the rows; or why there is none.
pub fn netted(given: &Given, offset: bool) -> Result<Vec<u8>, String> {
    written(given, offset).map(|written| written.book)
}

/// The line of the comparisons.
fn line(bytes: &[u8], comparisons: u64) -> String {
    let rows = bytes.len().saturating_sub(8) / 16;
    let [made, most] = [comparisons, bound(rows)].map(whole);
    format!("comparisons {made} of at most {most}\n")
}

/// Whether to offset, to print the pairs and to print the comparisons.
fn wanted(args: &Args, to: &Path) -> Result<[bool; 3], Failure> {
    let [offset, pairs, comparisons] =
        ["--offset", "--pairs", "--comparisons"].map(|name| args.flag(name));
    if pairs && !offset {
        return Err(usage("net: --pairs is of --offset, which is not given"));
    }
    let book = if offset { "written" } else { "netted" };
    apart_from_line(to, pairs.then_some("net: --pairs"), book)?;
    apart_from_line(to, comparisons.then_some("net: --comparisons"), book)?;
    Ok([offset, pairs, comparisons])
}

fn run(args: &Args) -> Outcome {
    let [from, to] = args.files()?;
    let [offset, pairs, comparisons] = wanted(args, to)?;
    apart(to, &[from])?;
    let given = read_book(from)?;
    let written = written(&given, offset).map_err(|why| no(format!("{}: {why}", input(from))))?;
    Out::new(args, to).write(&written.book)?;
    if comparisons {
        print(&line(&given.bytes, written.comparisons))?;
    }
    match written.offset {
        Some([rows, count]) if pairs => print(&pairs_line(count, rows, "netted rows")),
        _ => Ok(()),
    }
}
