//! The words of a command line, sorted out by the description of the command.

use super::near::{listed, meant};
use super::{unknown, usage, Args, Choice, Command, Failure, Outcome, Value};
use std::ffi::{OsStr, OsString};
use std::os::unix::ffi::OsStrExt;
use std::slice::Iter;

/// The name of an option, and the value that stands behind its =.
fn split(word: &OsStr) -> (&OsStr, Option<&OsStr>) {
    let bytes = word.as_bytes();
    match bytes.iter().position(|byte| *byte == b'=') {
        Some(at) => (
            OsStr::from_bytes(&bytes[..at]),
            Some(OsStr::from_bytes(&bytes[at + 1..])),
        ),
        None => (word, None),
    }
}

/// The option of a name, or the one that was meant.
fn find<'a>(command: &'a Command, name: &OsStr) -> Result<&'a Choice, Failure> {
    let given = name.to_string_lossy();
    let found = command.options.iter().find(|option| option.name == given);
    found.ok_or_else(|| unknown::option(command, &given))
}

/// The value of an option, behind its = or in the next word; none of a flag.
fn value(
    option: &Choice,
    behind: Option<&OsStr>,
    words: &mut Iter<OsString>,
) -> Result<Option<OsString>, String> {
    let name = option.name;
    let value = match (&option.value, behind) {
        (None, None) => return Ok(None),
        (None, Some(_)) => return Err(format!("{name} takes no value")),
        (Some(_), Some(value)) => Some(value),
        (Some(_), None) => words.next().map(OsString::as_os_str),
    };
    match value {
        None => Err(format!("{name} wants a value")),
        Some(value) => allowed(option, value).map(|()| Some(value.into())),
    }
}

/// Refuses a file without a name, and a value that is none of the words of its option, with the one that
/// was meant.
fn allowed(option: &Choice, value: &OsStr) -> Result<(), String> {
    let name = option.name;
    let words = match option.value {
        Some(Value::File(_) | Value::Folder(_)) if value.is_empty() => {
            return Err(format!("{name} is empty"));
        }
        Some(Value::Word(words)) if !words.iter().any(|word| value == *word) => words,
        _ => return Ok(()),
    };
    let (shown, list) = (value.display(), listed(words, "or"));
    let told = format!("{name} is '{shown}', not {list}");
    match &meant(&value.to_string_lossy(), words)[..] {
        [] => Err(told),
        words => Err(format!("{told}; did you mean {}?", listed(words, "or"))),
    }
}

impl Args {
    /// Sorts words into operands, options with their values, and flags; -- ends the options.
    pub fn parse(command: &Command, words: &[OsString]) -> Result<Args, Failure> {
        let mut args = Args::default();
        let mut words = words.iter();
        while let Some(word) = words.next() {
            if word == "--" {
                args.operands.extend(words.by_ref().cloned());
            } else if word.as_bytes().starts_with(b"-") && word != "-" {
                args.take(command, word, &mut words)?;
            } else {
                args.operands.push(word.clone());
            }
        }
        Ok(args)
    }

    /// Takes an option and its value.
    fn take(&mut self, command: &Command, word: &OsStr, words: &mut Iter<OsString>) -> Outcome {
        let (name, behind) = split(word);
        let option = find(command, name)?;
        let wrong = |what: String| usage(&format!("{}: {what}", command.name));
        match value(option, behind, words).map_err(wrong)? {
            None => self.flags.push(option.name),
            Some(_) if self.value(option.name).is_some() => {
                return Err(wrong(format!("{} is given twice", option.name)));
            }
            Some(value) => self.options.push((option.name, value)),
        }
        Ok(())
    }
}

#[cfg(test)]
mod tests {
    use super::*;
    use std::path::Path;

    const COMMAND: Command = Command {
        name: "grow",
        brief: "",
        forms: &[],
        about: &[],
        options: &[
            Choice::number("--seed", "S", ""),
            Choice::file("-o", "FILE", ""),
            Choice::word("--side", &["long", "short"], ""),
            Choice::flag("--all", ""),
        ],
        operands: Some(Value::File("BOOK")),
        run: |_| Ok(()),
    };

    fn parse(line: &str) -> Result<Args, Failure> {
        let words: Vec<OsString> = line.split_whitespace().map(OsString::from).collect();
        Args::parse(&COMMAND, &words)
    }

    #[test]
    fn words_are_sorted_out() {
        let args = parse("a --all - --seed 1_000 --all --side short").unwrap();
        assert_eq!(args.files(), Ok(["a", "-"].map(Path::new)));
        assert_eq!(args.number("--seed"), Ok(Some(1000)));
        assert_eq!(args.text("--side"), Some("short".into()));
        assert!(args.flag("--all") && args.path("-o").is_none());
        assert!(args.files::<1>().is_err());
        assert!(args.file_if_any().is_err() && args.word_if_any().is_err());
        assert_eq!(parse("--all").unwrap().file_if_any(), Ok(None));
        assert_eq!(parse("a").unwrap().file_if_any(), Ok(Some(Path::new("a"))));
        assert_eq!(parse("a").unwrap().word_if_any(), Ok(Some(OsStr::new("a"))));
    }

    /// Catches a value that is cut at its own =, and one that is taken from the next word too.
    #[test]
    fn a_value_may_stand_behind_an_equals_sign() {
        let args = parse("--seed=7 a -o=b=c --side=long").unwrap();
        assert_eq!(args.number("--seed"), Ok(Some(7)));
        assert_eq!(args.path("-o"), Some(Path::new("b=c")));
        assert_eq!(args.text("--side"), Some("long".into()));
        assert_eq!(args.files(), Ok([Path::new("a")]));
    }

    /// Catches options that are still read behind --, and a second -- that is lost.
    #[test]
    fn two_dashes_end_the_options() {
        let args = parse("--all -- --seed -- -x").unwrap();
        assert_eq!(args.files(), Ok(["--seed", "--", "-x"].map(Path::new)));
        assert!(args.flag("--all"));
        // As the value of an option they are nothing but a value.
        let args = parse("-o -- --all").unwrap();
        assert_eq!(args.path("-o"), Some(Path::new("--")));
        assert!(args.flag("--all"));
    }

    #[test]
    fn wrong_words_are_told() {
        for (line, expected) in [
            ("--seed", "grow: --seed wants a value"),
            ("--all=1", "grow: --all takes no value"),
            ("--all=", "grow: --all takes no value"),
            ("--seed 1 --seed=1", "grow: --seed is given twice"),
            ("--side up", "grow: --side is 'up', not long or short"),
            ("--side=", "grow: --side is '', not long or short"),
            ("--sed 1", "no option '--sed' of grow; did you mean --seed?"),
            ("--sed=1", "no option '--sed' of grow; did you mean --seed?"),
            ("--hlp", "no option '--hlp' of grow; did you mean --help?"),
            ("-x", "no option '-x' of grow; see market-risk grow --help"),
        ] {
            assert_eq!(parse(line), Err(usage(expected)));
        }
        for word in ["Long", "0", "shorts", "long|short"] {
            assert!(parse(&format!("--side={word}")).is_err(), "{word}");
        }
        let told = parse("--seed x").unwrap().number("--seed");
        assert_eq!(
            told,
            Err(usage(
                "--seed is 'x', not a whole number; write it as a whole number"
            ))
        );
    }
}
