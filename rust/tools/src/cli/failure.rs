//! How a command ends.

use crate::json::Json;

/// A refused book or table, a difference, or vectors that are not current.
const NO: u8 = 1;

/// A wrong command line, or a file that cannot be read or written.
const PROBLEM: u8 = 2;

/// The exit statuses, as help and the man page tell them.
pub const STATUSES: [(&str, &str); 3] = [
    ("0", "done"),
    (
        "1",
        "a refused book, table or text, a difference, or vectors that are not current",
    ),
    (
        "2",
        "a wrong command line, or a file that cannot be read or written",
    ),
];

/// Why a command failed, and its exit status.
#[derive(Debug, PartialEq, Eq)]
pub struct Failure {
    pub status: u8,
    pub message: String,
    /// The same for programs, where there is such a form.
    pub json: Option<Json>,
}

impl Failure {
    /// The failure with a form for programs.
    pub fn with(self, json: Json) -> Failure {
        let json = Some(json);
        Failure { json, ..self }
    }
}

/// What a command comes to.
pub type Outcome = Result<(), Failure>;

/// The answer is no.
pub fn no(message: impl ToString) -> Failure {
    Failure {
        status: NO,
        message: message.to_string(),
        json: None,
    }
}

/// The command line is wrong, or a file cannot be used.
pub fn usage(message: &str) -> Failure {
    Failure {
        status: PROBLEM,
        message: message.to_string(),
        json: None,
    }
}
