//! The words of a command line as a command reads them.

use super::{number, usage, Failure};
use std::ffi::{OsStr, OsString};
use std::path::Path;

/// The words of a command line. File names may be any bytes.
#[derive(Debug, Default, PartialEq, Eq)]
pub struct Args {
    pub(super) operands: Vec<OsString>,
    pub(super) options: Vec<(&'static str, OsString)>,
    pub(super) flags: Vec<&'static str>,
}

impl Args {
    /// Exactly so many files, as many as the form of the command has.
    pub fn files<const N: usize>(&self) -> Result<[&Path; N], Failure> {
        let files: Vec<&Path> = self.operands.iter().map(Path::new).collect();
        let given = files.len();
        let wrong = |_| usage(&format!("{given} files given where {N} are wanted"));
        files.try_into().map_err(wrong)
    }

    /// One file or none.
    pub fn file_if_any(&self) -> Result<Option<&Path>, Failure> {
        match self.operands[..] {
            [] => Ok(None),
            _ => self.files().map(|[file]| Some(file)),
        }
    }

    /// One word that is no file, or none.
    pub fn word_if_any(&self) -> Result<Option<&OsStr>, Failure> {
        let word = self.file_if_any()?;
        Ok(word.map(Path::as_os_str))
    }

    /// Whether an option was given, with a value or as a flag.
    pub(super) fn given(&self, name: &str) -> bool {
        self.flag(name) || self.value(name).is_some()
    }

    /// The value given for an option.
    pub(super) fn value(&self, name: &str) -> Option<&OsStr> {
        let given = self.options.iter().find(|(option, _)| *option == name);
        given.map(|(_, value)| value.as_os_str())
    }

    /// An option's value as the name of a file or folder.
    pub fn path(&self, name: &str) -> Option<&Path> {
        self.value(name).map(Path::new)
    }

    /// An option's value as text.
    pub fn text(&self, name: &str) -> Option<String> {
        let value = self.value(name)?;
        Some(value.to_string_lossy().into_owned())
    }

    /// An option's value as a whole number.
    pub fn number(&self, name: &str) -> Result<Option<u64>, Failure> {
        let parse = |value: &OsStr| number::whole(name, &value.to_string_lossy());
        let number = self.value(name).map(parse).transpose();
        number.map_err(|told| usage(&told))
    }

    /// Whether a flag was given.
    pub fn flag(&self, name: &str) -> bool {
        self.flags.contains(&name)
    }
}
