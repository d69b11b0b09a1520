//! `table`: a table of interest weights and ladder per cents, from one form into the other.

mod conditions;
mod json;
mod load;

use crate::cli::{usage, Args, Choice, Command, Failure, Outcome, Part, Value};
use crate::files::{apart, write};
use load::{read_table, text_of, Form};
use market_risk::Table;
use std::path::Path;

pub use json::json;
pub use load::Loaded;

pub const COMMAND: Command = Command {
    name: "table",
    brief: "a table of interest weights and per cents: bytes into text, or back",
    forms: &["[FILE] [--text | --bytes] [--out FILE]"],
    about: &[
        Part::Text(
            "Reads a table, which is 36 bytes or text, and writes it in the other form. \
             Without a file it writes document 01's table, as text. The option --table of \
             report and ladder takes either form. The text has seven lines, in this order:",
        ),
        Part::Words(&[
            (
                "weights",
                "the weights of bands 0 to 14: fifteen whole numbers, in basis points",
            ),
            ("vertical", "the per cent within a band"),
            ("zone-1", "the per cent within zone 1"),
            ("zone-2", "the per cent within zone 2"),
            ("zone-3", "the per cent within zone 3"),
            (
                "adjacent",
                "the per cent between zones 1 and 2, and between zones 2 and 3",
            ),
            ("zones-1-3", "the per cent between zones 1 and 3"),
        ]),
        Part::Text(
            "Blank lines and lines that begin with # are passed over. Of the 36 bytes, 30 are \
             the weights, two bytes each, low byte first, and six are the per cents. A file of \
             more than 64,000 bytes is no table, and is not read to its end.",
        ),
        Part::Text(
            "A table must have weights that never fall and are at most 2,000, vertical at most \
             each zone's per cent, each zone's at most adjacent, adjacent at most zones-1-3, \
             and that at most 100. Any other is refused with 18 or 19 and told with each \
             condition that it breaks; the exit status is then 1. The number is the proved \
             library's, the conditions are looked at here too, and the command fails if the \
             two do not agree.",
        ),
    ],
    options: &[
        Choice::flag("--text", "write text"),
        Choice::flag("--bytes", "write 36 bytes"),
        Choice::file("--out", "FILE", "write there and not to standard output"),
    ],
    operands: Some(Value::File("FILE")),
    run,
};

/// The form that the options ask for, else the other than was read.
fn wanted(args: &Args, read: Form) -> Result<Form, Failure> {
    match (args.flag("--text"), args.flag("--bytes"), read) {
        (true, true, _) => Err(usage("table: give one of --text and --bytes")),
        (true, ..) => Ok(Form::Text),
        (_, true, _) => Ok(Form::Bytes),
        (.., Form::Bytes) => Ok(Form::Text),
        (.., Form::Text) => Ok(Form::Bytes),
    }
}

fn run(args: &Args) -> Outcome {
    let from = args.file_if_any()?;
    let to = args.path("--out").unwrap_or(Path::new("-"));
    apart(to, from.as_slice())?;
    let (table, read) = match from {
        Some(path) => read_table(path)?,
        None => (Table::amendment(), Form::Bytes),
    };
    match wanted(args, read)? {
        Form::Text => write(to, text_of(&table).as_bytes()),
        Form::Bytes => write(to, table.bytes()),
    }
}
