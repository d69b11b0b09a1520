//! What is told of a command or an option that there is not.

use super::near::{begun, did_you_mean, listed, meant, stem};
use super::{usage, Args, Command, Failure};
use crate::COMMANDS;
use std::ffi::OsStr;
use std::path::Path;

/// The commands that are run most.
const MOST_USED: [&str; 5] = ["report", "ladder", "html", "pack", "unpack"];

/// A command line without a word.
pub fn nothing() -> Failure {
    let most = listed(&MOST_USED, "and");
    usage(&format!(
        "no command given, as in market-risk report BOOK; the most used are {most}; see market-risk --help"
    ))
}

/// A command that there is not.
pub fn command(commands: &[Command], given: &str) -> Failure {
    let names: Vec<&str> = commands.iter().map(|command| command.name).collect();
    let hint = did_you_mean(&meant(given, &names), "market-risk --help");
    usage(&format!("no command '{given}'; {hint}"))
}

/// A first word that is no command: a file or an option before which none is given, or a name that is
/// misspelt.
pub fn first(commands: &[Command], name: &OsStr) -> Failure {
    let given = name.to_string_lossy();
    let names: Vec<&str> = commands.iter().map(|command| command.name).collect();
    let of = having(commands, &given);
    if !meant(&given, &names).is_empty() {
        command(commands, &given)
    } else if Path::new(name).is_file() {
        usage(&format!(
            "no command given before the file {given}; did you mean market-risk report {given}?"
        ))
    } else if !of.is_empty() {
        let of = listed(&of, "and");
        usage(&format!(
            "no command given before {given}, an option of {of}"
        ))
    } else {
        command(commands, &given)
    }
}

/// The commands that have an option.
fn having<'a>(commands: &'a [Command], given: &str) -> Vec<&'a str> {
    let has = |command: &&Command| command.options.iter().any(|option| option.name == given);
    let commands = commands.iter().filter(has);
    commands.map(|command| command.name).collect()
}

/// What is told of an option that names the output, where the command has another for it, or none but a
/// file for it.
fn output(command: &Command, given: &str) -> Option<String> {
    if !["o", "out", "output"].contains(&&*stem(given)) {
        return None;
    }
    let mut names = command.options.iter().map(|option| option.name);
    if let Some(name) = names.find(|name| ["-o", "--out"].contains(name)) {
        return Some(format!("did you mean {name}?"));
    }
    let form = command.form(&Args::default())?;
    let call = command.call(&form);
    match form.operands[..] {
        [_, .., (last, _)] => Some(format!("the output is {last}, without an option: {call}")),
        _ => None,
    }
}

/// What may have been meant by an option that a command has not.
fn hint(command: &Command, given: &str) -> String {
    let names = command.options.iter().map(|option| option.name);
    let names: Vec<&str> = names.chain(["--help"]).collect();
    let of = having(COMMANDS, given);
    if let Some(told) = output(command, given) {
        told
    } else if begun(given, &names).is_empty() && !of.is_empty() {
        format!("{given} is an option of {}", listed(&of, "and"))
    } else {
        let all = format!("market-risk {} --help", command.name);
        did_you_mean(&meant(given, &names), &all)
    }
}

/// An option that a command has not.
pub fn option(command: &Command, given: &str) -> Failure {
    let hint = hint(command, given);
    usage(&format!("no option '{given}' of {}; {hint}", command.name))
}
