//! Why a file is not taken: in words, each line with the file's name, and as JSON.

use crate::cli::{no, Failure};
use crate::files::input;
use crate::json::Json;
use books::csv::{Faults, LineError};
use std::path::Path;

/// Why a file is not taken.
#[derive(Debug, PartialEq, Eq)]
pub enum Unread {
    /// As a whole.
    Whole(String),
    /// By lines of its text.
    Lines(Faults),
}

impl From<String> for Unread {
    fn from(what: String) -> Unread {
        Unread::Whole(what)
    }
}

impl From<Faults> for Unread {
    fn from(faults: Faults) -> Unread {
        Unread::Lines(faults)
    }
}

impl Unread {
    /// The faults that are told, in words, each in a line of its own where it is of a line.
    fn words(&self) -> Vec<String> {
        match self {
            Unread::Whole(what) => vec![what.clone()],
            Unread::Lines(faults) => faults.to_string().lines().map(String::from).collect(),
        }
    }

    /// The faults that are told, as JSON.
    fn json(&self, name: &str) -> Vec<Json> {
        let fault = |line: Option<&LineError>, what: &str| {
            let mut fields = vec![("file", name.into())];
            fields.extend(line.map(|fault| ("line", (fault.line as u64).into())));
            let column = line.and_then(|fault| fault.column.as_deref());
            fields.extend(column.map(|column| ("column", column.into())));
            fields.push(("what", what.into()));
            Json::Object(fields)
        };
        match self {
            Unread::Whole(what) => vec![fault(None, what)],
            Unread::Lines(faults) => {
                let told = faults.told().iter();
                told.map(|one| fault(Some(one), &one.what)).collect()
            }
        }
    }

    /// How many more lines are bad.
    fn more(&self) -> u64 {
        match self {
            Unread::Whole(_) => 0,
            Unread::Lines(faults) => faults.more() as u64,
        }
    }
}

/// The failure of a command whose file is not taken.
pub fn unread(path: &Path, why: &Unread) -> Failure {
    let name = input(path);
    let words = why.words().into_iter();
    let words: Vec<String> = words.map(|line| format!("{name}: {line}")).collect();
    let faults = Json::List(why.json(&name));
    let json = Json::Object(vec![("faults", faults), ("more_lines", why.more().into())]);
    no(words.join("\n")).with(json)
}
