//! The description of a command, from which its help, its part of the man page, its completion and
//! the parsing of its options are made.

use super::{help, operands, print, Args, Outcome};
use std::ffi::OsString;

/// A subcommand.
pub struct Command {
    pub name: &'static str,
    /// One line for the list of commands.
    pub brief: &'static str,
    /// What follows the name, one for each way to call it.
    pub forms: &'static [&'static str],
    /// What there is to say about it, but for its options.
    pub about: &'static [Part],
    pub options: &'static [Choice],
    /// What the words are that are no options, if it takes any.
    pub operands: Option<Value>,
    pub run: fn(&Args) -> Outcome,
}

/// A part of what there is to say about a command.
pub enum Part {
    /// A paragraph.
    Text(&'static str),
    /// Lines that stand as they are.
    Lines(&'static [&'static str]),
    /// Words, each with what it stands for.
    Words(&'static [(&'static str, &'static str)]),
}

/// An option of a command.
pub struct Choice {
    /// With its dashes.
    pub name: &'static str,
    /// The value that it takes, or none for a flag.
    pub value: Option<Value>,
    /// What it does.
    pub about: &'static str,
}

/// The kind of a value, with the word that stands for it where it is not one of some words.
#[derive(Clone, Copy)]
pub enum Value {
    File(&'static str),
    Folder(&'static str),
    Number(&'static str),
    Text(&'static str),
    /// One of these words.
    Word(&'static [&'static str]),
    /// The name of a command.
    Command,
}

impl Value {
    /// The value as usage lines show it.
    pub fn shown(&self) -> String {
        match self {
            Value::File(word) | Value::Folder(word) => word.to_string(),
            Value::Number(word) | Value::Text(word) => word.to_string(),
            Value::Word(words) => words.join("|"),
            Value::Command => "COMMAND".into(),
        }
    }
}

impl Choice {
    /// An option that takes no value.
    pub const fn flag(name: &'static str, about: &'static str) -> Choice {
        let value = None;
        Choice { name, value, about }
    }

    /// An option that takes a file.
    pub const fn file(name: &'static str, word: &'static str, about: &'static str) -> Choice {
        let value = Some(Value::File(word));
        Choice { name, value, about }
    }

    /// An option that takes a folder.
    pub const fn folder(name: &'static str, word: &'static str, about: &'static str) -> Choice {
        let value = Some(Value::Folder(word));
        Choice { name, value, about }
    }

    /// An option that takes a whole number.
    pub const fn number(name: &'static str, word: &'static str, about: &'static str) -> Choice {
        let value = Some(Value::Number(word));
        Choice { name, value, about }
    }

    /// An option that takes other text.
    pub const fn text(name: &'static str, word: &'static str, about: &'static str) -> Choice {
        let value = Some(Value::Text(word));
        Choice { name, value, about }
    }

    /// An option that takes one of some words.
    pub const fn word(
        name: &'static str,
        words: &'static [&'static str],
        about: &'static str,
    ) -> Choice {
        let value = Some(Value::Word(words));
        Choice { name, value, about }
    }

    /// The option with its value, as usage lines show it.
    pub fn shown(&self) -> String {
        match &self.value {
            Some(value) => format!("{} {}", self.name, value.shown()),
            None => self.name.into(),
        }
    }
}

impl Command {
    /// Shows the help text, or runs the command on its words.
    pub fn start(&self, words: &[OsString]) -> Outcome {
        let mut options = words.iter().take_while(|word| *word != "--");
        if options.any(|word| word == "--help" || word == "-h") {
            return print(&help::of(self));
        }
        let args = Args::parse(self, words)?;
        operands::check(self, &args)?;
        (self.run)(&args)
    }
}
