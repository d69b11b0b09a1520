//! The command line: the description of the commands, and what is made from it: help, the parsing
//! of options, the man page, the completion of shells, and how a command fails.

mod args;
mod command;
pub mod completion;
mod failure;
mod form;
pub mod help;
mod layout;
pub mod man;
mod near;
pub mod number;
mod operands;
mod parse;
mod unknown;
pub mod version;

pub use crate::files::print;
pub use args::Args;
pub use command::{Choice, Command, Part, Value};
pub use failure::{no, usage, Failure, Outcome};
pub use near::listed;

use std::ffi::{OsStr, OsString};

/// Runs the command that the first word names.
pub fn run(commands: &[Command], words: &[OsString]) -> Outcome {
    match words.split_first() {
        Some((name, rest)) => match find(commands, name) {
            Some(command) => command.start(rest),
            None => Err(unknown::first(commands, name)),
        },
        None => Err(unknown::nothing()),
    }
}

/// The command of a name, or of an option that stands for one.
fn find<'a>(commands: &'a [Command], name: &OsStr) -> Option<&'a Command> {
    let wanted = match name.to_str()? {
        "-h" | "--help" => help::COMMAND.name,
        "-V" | "--version" => version::COMMAND.name,
        other => other,
    };
    commands.iter().find(|command| command.name == wanted)
}
