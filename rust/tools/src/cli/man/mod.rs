//! `man`: the man page, made from the descriptions of the commands.

mod roff;
mod sections;

use super::failure::STATUSES;
use super::help::{units, CONVENTIONS};
use super::layout::filled;
use super::version::VERSION;
use super::{print, Args, Command, Outcome, Part};
use crate::COMMANDS;
use sections::{CSV, DATE, DESCRIPTION, EXAMPLES, FILES, NAME, SEE_ALSO, SYNOPSIS};

pub const COMMAND: Command = Command {
    name: "man",
    brief: "the man page of this tool",
    forms: &[""],
    about: &[
        Part::Text(
            "Prints the man page of this tool with all its commands, in the language of man. \
             Look at it with",
        ),
        Part::Lines(&["market-risk man | man -l -"]),
    ],
    options: &[],
    operands: None,
    run,
};

fn run(args: &Args) -> Outcome {
    let [] = args.files()?;
    print(&page(COMMANDS))
}

/// A section: its heading and what stands below.
fn section(heading: &str, body: String) -> String {
    let body = body.strip_prefix(".PP\n").unwrap_or(&body);
    format!(".SH {heading}\n{body}")
}

/// How a command is called, in a form whose options stay with their values.
fn call(command: &Command, form: &str) -> String {
    let units = units(form).into_iter();
    let units = units.map(|unit| roff::plain(&unit).replace(' ', "\\ "));
    let begin = format!("\\fBmarket\\-risk {}\\fR", roff::plain(command.name));
    filled(roff::WIDTH, "", 0, [begin].into_iter().chain(units))
}

/// What there is to say about a command.
fn command(command: &Command) -> String {
    let calls: Vec<String> = command
        .forms
        .iter()
        .map(|form| call(command, form))
        .collect();
    let about = command.about.iter().map(roff::part);
    let options = command.options.iter();
    let options = options.map(|option| roff::item(&option.shown(), option.about));
    let name = roff::plain(command.name);
    let parts = about.chain(options).collect::<String>();
    format!(".SS {name}\n{}{parts}", calls.join(".br\n"))
}

/// Commands to type, each below what it does.
fn examples() -> String {
    let example = |(about, line): &(&str, &str)| roff::paragraph(about) + &roff::lines([*line]);
    EXAMPLES.iter().map(example).collect()
}

/// The man page of the commands.
fn page(commands: &[Command]) -> String {
    let parts = |parts: &[Part]| parts.iter().map(roff::part).collect::<String>();
    let listed: String = commands.iter().map(command).collect();
    let statuses = STATUSES.map(|(status, meaning)| roff::item(status, meaning));
    [
        format!(".TH MARKET\\-RISK 1 {DATE} \"market\\-risk {VERSION}\"\n"),
        // Names that are typed are not to be parted, nor lines stretched.
        ".nh\n.ad l\n".into(),
        section("NAME", parts(NAME)),
        section("SYNOPSIS", parts(SYNOPSIS)),
        section(
            "DESCRIPTION",
            parts(DESCRIPTION) + &roff::paragraph(CONVENTIONS),
        ),
        section("COMMANDS", listed),
        section("CSV", parts(CSV)),
        section("\"EXIT STATUS\"", statuses.concat()),
        section("FILES", parts(FILES)),
        section("EXAMPLES", examples()),
        section("\"SEE ALSO\"", parts(SEE_ALSO)),
    ]
    .concat()
}
