//! `unpack`: a book or an option table into CSV text.

use crate::cli::{no, Args, Choice, Command, Outcome, Part, Value};
use crate::files::{apart, input, write};
use crate::load::{read_book, read_options};
use crate::options;
use books::{csv, Book};

pub const COMMAND: Command = Command {
    name: "unpack",
    brief: "a book or an option table into a CSV file",
    forms: &["BOOK CSV", "--options TABLE CSV"],
    about: &[Part::Text(
        "Writes the rows of a book as a CSV file that pack takes back. Rows that the \
         library refuses are written as they are; a kind that the class does not know is \
         its number. A row of kind floating has the days to its next fixing in the column \
         days, and those to final maturity in the column coupon. A file whose length does \
         not agree with its counts has no rows and is an error, and so is a packed book of more \
         than 4,000 rows or a table of more than 1,000 options.",
    )],
    options: &[Choice::flag(
        "--options",
        "write the options of an option table in the same way, as a CSV file that pack \
         --options takes back; a class or right that is none is its number",
    )],
    operands: Some(Value::File("BOOK")),
    run,
};

/// The rows of a book as text.
fn unpack(bytes: &[u8]) -> Result<String, String> {
    let Some(book) = Book::decode(bytes) else {
        market_risk::check(bytes).map_err(|refusal| refusal.to_string())?;
        return Err("the length does not agree with the counts".into());
    };
    Ok(csv::write(&book))
}

fn run(args: &Args) -> Outcome {
    let [from, to] = args.files()?;
    apart(to, &[from])?;
    let text = match args.flag("--options") {
        true => options::unpack(read_options(from)?),
        false => unpack(&read_book(from)?.bytes),
    };
    let text = text.map_err(|why| no(format!("{}: {why}", input(from))))?;
    write(to, text.as_bytes())
}
