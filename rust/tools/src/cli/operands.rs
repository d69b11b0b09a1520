//! The files of a command line, and other words that are no options, held to the form of the command.

use super::form::{are_missing, Form};
use super::near::listed;
use super::{usage, Args, Command, Outcome, Value};
use std::ffi::OsString;
use std::os::unix::ffi::OsStrExt;

/// The option of a command that a word would be with its dashes.
fn undashed<'a>(command: &'a Command, word: &OsString) -> Option<&'a str> {
    let word = word.to_str()?.to_lowercase();
    let word = word.split('=').next()?;
    let mut names = command.options.iter().map(|option| option.name);
    names.find(|name| name.trim_start_matches('-') == word)
}

/// What is told of words that are too many, of which the first is named.
fn too_many(command: &Command, words: &[OsString]) -> String {
    let kind = match command.operands {
        Some(Value::File(_)) => "file",
        _ => "word",
    };
    let first = words[0].display();
    let told = match words.len() {
        1 => format!("'{first}' is one {kind} too many"),
        2 => format!("'{first}' and another are {kind}s too many"),
        more => format!("'{first}' and {} others are {kind}s too many", more - 1),
    };
    match words[0] != "-" && words[0].as_bytes().starts_with(b"-") {
        true => format!("{told}, for behind -- no word is an option"),
        false => told,
    }
}

/// What is told of more words than a form takes: an option without its dashes, or those at the end.
fn superfluous(command: &Command, form: &Form, words: &[OsString]) -> String {
    let mut options = words
        .iter()
        .zip(words.iter().map(|word| undashed(command, word)));
    match options.find_map(|(word, option)| Some((word, option?))) {
        Some((word, option)) => {
            let told = too_many(command, std::slice::from_ref(word));
            format!("{told}; did you mean {option}?")
        }
        None => {
            let told = too_many(command, &words[form.operands.len()..]);
            format!("{told}; {}", command.call(form))
        }
    }
}

/// Refuses fewer words than the form must have, by the names that it gives them, more than it takes, and
/// one that is empty, as of a shell's variable that is not set.
pub fn check(command: &Command, args: &Args) -> Outcome {
    let Some(form) = command.form(args) else {
        return Ok(());
    };
    let (words, wanted) = (&args.operands, &form.operands);
    let missing = wanted.iter().skip(words.len()).filter(|(_, must)| *must);
    let named = |(name, _): &(&str, bool)| listed(&name.split('|').collect::<Vec<_>>(), "or");
    let missing: Vec<String> = missing.map(named).collect();
    let empty = words.iter().zip(wanted).find(|(word, _)| word.is_empty());
    let told = match (empty, missing.is_empty(), words.len() > wanted.len()) {
        (Some((_, (name, _))), ..) => format!("{name} is empty; {}", command.call(&form)),
        (None, false, _) => format!("{}; {}", are_missing(&missing), command.call(&form)),
        (None, true, true) => superfluous(command, &form, words),
        (None, true, false) => return Ok(()),
    };
    Err(usage(&format!("{}: {told}", command.name)))
}
