//! `completion`: what a shell needs to complete the commands, made from their descriptions.

mod bash;
mod fish;
mod zsh;

use super::{print, usage, Args, Command, Outcome, Part, Value};
use crate::COMMANDS;
use std::ffi::OsStr;

/// The shells that there are completions for.
const SHELLS: &[&str] = &["bash", "zsh", "fish"];

pub const COMMAND: Command = Command {
    name: "completion",
    brief: "the completion of commands and options in a shell",
    forms: &["bash|zsh|fish"],
    about: &[
        Part::Text(
            "Prints what a shell needs to complete commands, options, the words that options \
             take, and file names. ./install puts it in place; for one shell alone, type",
        ),
        Part::Words(&[
            ("bash", "source <(market-risk completion bash)"),
            (
                "zsh",
                "source <(market-risk completion zsh), after compinit",
            ),
            ("fish", "market-risk completion fish | source"),
        ]),
    ],
    options: &[],
    operands: Some(Value::Word(SHELLS)),
    run,
};

fn run(args: &Args) -> Outcome {
    match args.word_if_any()?.and_then(OsStr::to_str) {
        Some("bash") => print(&bash::script(COMMANDS)),
        Some("zsh") => print(&zsh::script(COMMANDS)),
        Some("fish") => print(&fish::script(COMMANDS)),
        _ => Err(usage("completion: name a shell: bash, zsh or fish")),
    }
}

/// The names of the commands, in one line.
fn names(commands: &[Command]) -> String {
    let names: Vec<&str> = commands.iter().map(|command| command.name).collect();
    names.join(" ")
}

/// The beginning of a text, up to its first stop: what there is room for beside a word.
fn clause(text: &str) -> &str {
    let stops = [", ", "; ", ": ", ". "];
    let ends = stops.iter().filter_map(|stop| text.find(stop));
    &text[..ends.min().unwrap_or(text.len())]
}

/// Text in single quotes, as bash and zsh read it.
fn quoted(text: &str) -> String {
    format!("'{}'", text.replace('\'', r"'\''"))
}

#[cfg(test)]
mod tests {
    use super::*;

    /// Catches a stop that is missed, and a point within a number that is taken for one.
    #[test]
    fn a_clause_ends_at_the_first_stop() {
        assert_eq!(clause("the seed, 1 if not given"), "the seed");
        assert_eq!(clause("write text"), "write text");
        assert_eq!(clause("at most 1.5, or 36,000: more"), "at most 1.5");
    }

    #[test]
    fn a_quote_does_not_end_the_quotes() {
        assert_eq!(quoted("a book's rows"), r"'a book'\''s rows'");
    }
}
