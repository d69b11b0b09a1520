//! `help`: the help texts, laid out from the descriptions of the commands.

use super::failure::STATUSES;
use super::layout::{columns, filled, paragraph, WIDTH};
use super::{print, Args, Command, Outcome, Part, Value};
use crate::COMMANDS;

/// What holds of all commands.
pub const CONVENTIONS: &str = "The value of an option follows it, or stands behind a =, as in \
     --currency=7; -- ends the options. A file named - is standard input or output. An output is \
     written whole or not at all, and may not be one of the inputs. Where the reader of standard \
     output is gone, what is left is not written, and that is no error; where standard output is \
     closed, it is one.";

pub const COMMAND: Command = Command {
    name: "help",
    brief: "the commands, or one of them",
    forms: &["[COMMAND]"],
    about: &[Part::Text(
        "Prints the list of commands, or what COMMAND does, how it is called and which options it \
         takes; market-risk COMMAND --help prints the same.",
    )],
    options: &[],
    operands: Some(Value::Command),
    run,
};

fn run(args: &Args) -> Outcome {
    match args.word_if_any()? {
        Some(name) => match super::find(COMMANDS, name) {
            Some(command) => print(&of(command)),
            None => Err(super::unknown::command(COMMANDS, &name.to_string_lossy())),
        },
        None => print(&overview(COMMANDS)),
    }
}

/// The parts of a form between which a line may be broken: an option with its value, brackets with
/// what they hold.
pub fn units(form: &str) -> Vec<String> {
    let mut units: Vec<String> = Vec::new();
    let mut open = 0;
    for word in form.split_whitespace() {
        match units.last_mut() {
            Some(unit) if open > 0 || !word.starts_with(['-', '[']) => {
                unit.push(' ');
                unit.push_str(word);
            }
            _ => units.push(word.into()),
        }
        open += word.matches('[').count();
        open -= word.matches(']').count();
    }
    units
}

/// How a command is called.
fn usage_lines(command: &Command) -> String {
    let line = |form: &&str| {
        let begin = format!("market-risk {} ", command.name);
        filled(WIDTH, &begin, begin.len(), units(form))
    };
    command.forms.iter().map(line).collect()
}

/// A part of the text.
fn part(part: &Part) -> String {
    match part {
        Part::Text(text) => paragraph(text),
        Part::Lines(lines) => lines.iter().map(|line| format!("  {line}\n")).collect(),
        Part::Words(words) => columns(words),
    }
}

/// The help text of a command.
pub fn of(command: &Command) -> String {
    let mut parts = vec![usage_lines(command)];
    parts.extend(command.about.iter().map(part));
    let options = command.options.iter();
    let options: Vec<_> = options.map(|one| (one.shown(), one.about)).collect();
    if !options.is_empty() {
        parts.push(columns(&options));
    }
    parts.join("\n")
}

/// The list of commands.
pub fn overview(commands: &[Command]) -> String {
    let rows: Vec<_> = commands.iter().map(|one| (one.name, one.brief)).collect();
    let statuses = STATUSES.map(|(status, meaning)| format!("{status} {meaning}"));
    [
        "market-risk COMMAND ...\n".into(),
        columns(&rows),
        paragraph("market-risk help COMMAND, or market-risk COMMAND --help, tells of one."),
        paragraph(CONVENTIONS),
        paragraph(&format!("Exit status: {}.", statuses.join("; "))),
    ]
    .join("\n")
}

#[cfg(test)]
mod tests {
    use super::*;

    /// Catches an option parted from its value, and brackets that are broken up.
    #[test]
    fn forms_break_between_options() {
        let form = "BOOK OUT --side long|short [--offset [--pairs]] [--text | --bytes] -o FILE";
        let expected = [
            "BOOK OUT",
            "--side long|short",
            "[--offset [--pairs]]",
            "[--text | --bytes]",
            "-o FILE",
        ];
        assert_eq!(units(form), expected);
    }

    /// Catches an option that a form has and the list has not, or the other way round, and a text
    /// that is wider than a terminal.
    #[test]
    fn forms_name_the_options_of_the_list() {
        for command in COMMANDS {
            let forms = command.forms.join(" ");
            let names = forms.split([' ', '[', ']']);
            let mut named: Vec<&str> = names.filter(|word| word.starts_with('-')).collect();
            let mut listed: Vec<&str> = command.options.iter().map(|one| one.name).collect();
            named.sort_unstable();
            named.dedup();
            listed.sort_unstable();
            assert_eq!(named, listed, "{}", command.name);
            for line in of(command).lines().chain(overview(COMMANDS).lines()) {
                assert!(line.chars().count() <= 100, "{line}");
            }
        }
    }
}
