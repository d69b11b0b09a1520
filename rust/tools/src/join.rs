//! `join`: two books into one.

use crate::cli::{no, Args, Command, Failure, Outcome, Part, Value};
use crate::files::{apart, input, once};
use crate::load::{read_book, Given};
use crate::report::explain;
use crate::text::whole;
use crate::written::{self, Out};
use books::ROW_BYTES;
use market_risk::Refusal;
use std::path::Path;

pub const COMMAND: Command = Command {
    name: "join",
    brief: "two books into a third",
    forms: &["A B BOOK [--csv]"],
    about: &[Part::Text(
        "Writes the join of two books: the counts are added, and each body of A is \
         followed by B's. Nothing is written when either book is refused or they have more \
         than 4,000 rows together.",
    )],
    options: &[written::CSV],
    operands: Some(Value::File("BOOK")),
    run,
};

fn run(args: &Args) -> Outcome {
    let [a, b, to] = args.files()?;
    once(&[a, b])?;
    apart(to, &[a, b])?;
    let books = [(a, read_book(a)?), (b, read_book(b)?)];
    let joined = market_risk::joined(&books[0].1.bytes, &books[1].1.bytes);
    let joined = joined.map_err(|refusal| refused(&books, &refusal))?;
    Out::new(args, to).write(&joined).map(drop)
}

/// The rows of a book that is accepted.
fn rows(given: &Given) -> u64 {
    (given.bytes.len().saturating_sub(8) / ROW_BYTES) as u64
}

/// Two books that are not joined: the rows that are too many, or the refusal of one of them.
fn refused(books: &[(&Path, Given); 2], refusal: &Refusal) -> Failure {
    let (path, given) = &books[usize::from(refusal.book == 1)];
    if refusal.number != 11 {
        return no(format!("{}: {}", input(path), explain(given, refusal)));
    }
    let counts = books.each_ref().map(|(_, given)| rows(given));
    let [one, two, both] = [counts[0], counts[1], counts[0] + counts[1]].map(whole);
    let [a, b] = books.each_ref().map(|(path, _)| input(path));
    no(format!(
        "{refusal}\n{a} has {one} rows and {b} {two}, together {both}, and 4,000 are the most"
    ))
}
