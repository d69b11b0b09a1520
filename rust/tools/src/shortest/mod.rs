//! `shortest`: the shortest file that shows why a book is refused.

mod doubt;
mod reading;

use crate::cli::{no, print, usage, Args, Choice, Command, Outcome, Part, Value};
use crate::files::{apart, input};
use crate::load::{read_book, Given};
use crate::report::explain;
use crate::text::whole;
use crate::written::{self, length_line, Out};
use books::Book;
use doubt::doubt;
use market_risk::Shortest;

pub const COMMAND: Command = Command {
    name: "shortest",
    brief: "the shortest file that shows why a book is refused",
    forms: &["BOOK -o FILE [--csv]"],
    about: &[
        Part::Text(
            "Writes the shortest file that is refused with the same number as a refused book, \
             to be sent in the place of the book where the number is to be explained. It tells \
             the refusal as market-risk report does, with the row in the book and its class, \
             and the length of the file. Its bytes are, by the number,",
        ),
        Part::Words(&[
            ("1", "none"),
            ("2", "the contents of the book, its first eight bytes"),
            (
                "3",
                "the contents, in which the first count is made 1 where all four are zero",
            ),
            (
                "4 to 9, 15",
                "24: the contents of a book of one row, and the refused row as it is",
            ),
        ]),
        Part::Text(
            "so that of all rows the refused one alone is in it. No shorter file is refused \
             with that number. The file is a book like others: explain it with market-risk \
             report, show it with market-risk unpack. Those of 1, 2 and 3 have no rows and \
             cannot be text: where text is asked for they are not written, and the exit status is \
             2.",
        ),
        Part::Text(
            "Of a book that is accepted there is nothing to show: no file is written, and the \
             exit status is 1. The file is the proved library's. The book's refusal is looked \
             for here once more, and the command fails, and writes nothing, if another file \
             shows it or the library does not refuse the file alike.",
        ),
    ],
    options: &[
        Choice::file(
            "-o",
            "FILE",
            "the file to write; not standard output, where the refusal is told",
        ),
        written::CSV,
    ],
    operands: Some(Value::File("BOOK")),
    run,
};

/// What shows a book's refusal.
struct Shown {
    file: Vec<u8>,
    number: u64,
    /// What is told of the refusal.
    told: String,
}

/// The library's file, held to the book, with the book's refusal; or why there is none.
fn shown(given: &Given) -> Result<Shown, String> {
    let bytes = &given.bytes[..];
    let mut out = [0; 24];
    let answer = market_risk::shortest(bytes, &mut out).map_err(|refusal| refusal.to_string())?;
    let file = match answer {
        Shortest::Accepted => None,
        Shortest::Refused { length } => {
            let past = || format!("the library tells of {length} bytes, and 24 are the most");
            Some(out.get(..length).ok_or_else(past)?)
        }
    };
    doubt(bytes, file).map_or(Ok(()), Err)?;
    match (file, market_risk::check(bytes)) {
        (Some(file), Err(refusal)) => Ok(Shown {
            file: file.to_vec(),
            number: refusal.number,
            told: explain(given, &refusal),
        }),
        _ => Err("accepted: there is no refusal to show, and nothing is written".into()),
    }
}

/// Refuses text of a file that has no rows.
fn rows_of_text(out: &Out, shown: &Shown) -> Outcome {
    if !out.is_text() || Book::decode(&shown.file).is_some() {
        return Ok(());
    }
    let (number, instead) = (shown.number, out.instead());
    Err(usage(&format!(
        "shortest: a file that shows refusal {number} has no rows and cannot be text; {instead}"
    )))
}

/// The line of the file that is written; where it is packed, beside the length of the book.
fn line(out: &Out, length: usize, bytes: &[u8]) -> String {
    if out.is_text() {
        return length_line(out.to, length);
    }
    let [length, of] = [length, bytes.len()].map(|length| whole(length as u64));
    format!("{}: {length} of {of} bytes\n", out.to.display())
}

fn run(args: &Args) -> Outcome {
    let [from] = args.files()?;
    let out = Out::beside(args, ["shortest", "the refusal is told"])?;
    let out = out.ok_or_else(|| COMMAND.incomplete(args))?;
    apart(out.to, &[from])?;
    let given = read_book(from)?;
    let shown = shown(&given).map_err(|why| no(format!("{}: {why}", input(from))))?;
    rows_of_text(&out, &shown)?;
    let line = line(&out, out.write(&shown.file)?, &given.bytes);
    print(&format!("{}\n{line}", shown.told))
}
