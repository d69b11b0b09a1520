//! The forms in which figures are printed: as text for people, as JSON or as CSV.

use crate::cli::{usage, Args, Choice, Failure};
use crate::files::print;

/// The options of a command that prints figures in each form.
pub const JSON: Choice = Choice::flag(
    "--json",
    "prints JSON and nothing else, whole numbers with their units in the names; of a refused book \
     the refusal, of text that is not taken its faults, beside the message",
);
pub const CSV: Choice = Choice::flag(
    "--csv",
    "prints one CSV table and nothing else, whole numbers with their units in the titles",
);

/// What is printed on standard output.
#[derive(Clone, Copy, Debug, PartialEq, Eq)]
pub enum Form {
    Text,
    Json,
    Csv,
}

impl Form {
    /// The form that the options ask for.
    pub fn of(args: &Args) -> Result<Form, Failure> {
        match (args.flag("--json"), args.flag("--csv")) {
            (false, false) => Ok(Form::Text),
            (true, false) => Ok(Form::Json),
            (false, true) => Ok(Form::Csv),
            (true, true) => Err(usage("give one of --json and --csv")),
        }
    }

    /// A failure, which is printed too where JSON is wanted and it has that form.
    pub fn failed(self, failure: Failure) -> Failure {
        match (self, &failure.json) {
            (Form::Json, Some(json)) => {
                let printed = print(&format!("{json}\n"));
                printed.err().unwrap_or(failure)
            }
            _ => failure,
        }
    }
}
