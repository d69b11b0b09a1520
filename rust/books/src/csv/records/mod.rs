//! Text cut into records: the fields of a line, which may be in quotes.
//!
//! A line ends with LF, CRLF or CR. A field in double quotes may hold separators and line ends, and a
//! quote of its own where it is doubled. Blanks around a field, and around its quotes, are not of it.
//! Passed over are lines whose first sign is #, also where a spreadsheet puts the whole comment into
//! quotes, and lines that have nothing but blanks and separators. A row that begins with an error of a
//! spreadsheet or a feed, such as #REF! or #N/A Invalid Security, is no comment.

#[cfg(test)]
mod tests;

use super::faults::{shown, LineError};
use std::borrow::Cow;

/// The signs that end a line, alone or as CR and LF.
const LINE_ENDS: [char; 2] = ['\r', '\n'];

/// How many lines end within a text.
pub(super) fn lines_in(text: &str) -> usize {
    text.matches(LINE_ENDS).count() - text.matches("\r\n").count()
}

/// The fields that every row has beside its first: of class, group, kind, long and short.
const ALWAYS: usize = 4;

/// Whether a field that begins with # is as a spreadsheet shows an error, or a number that its column is too
/// narrow for: at least one sign more, without blanks and small letters.
fn error_shown(field: &str) -> bool {
    let shown = |sign: char| !sign.is_whitespace() && !sign.is_lowercase();
    field.len() > 1 && field.chars().all(shown)
}

/// What is told of a row that begins as a comment does: no blank stands behind its #, and it has the fields
/// of a row, or one beside an error.
fn hidden<'a>(mut fields: impl Iterator<Item = &'a str>) -> Option<String> {
    let first = fields.next()?;
    let behind = first.strip_prefix('#')?;
    let others = fields.filter(|field| !field.is_empty()).count();
    let row = others >= if error_shown(first) { 1 } else { ALWAYS };
    (row && !behind.is_empty() && !behind.starts_with(char::is_whitespace)).then(|| {
        let first = shown(first);
        format!("a row begins with {first}; a comment has a blank behind its #")
    })
}

/// The fields of a line, and the line that they begin on.
#[derive(Clone, Debug, PartialEq, Eq)]
pub struct Record<'a> {
    pub line: usize,
    pub fields: Vec<Cow<'a, str>>,
}

impl Record<'_> {
    /// Whether nothing stands in it, or a comment.
    fn passed_over(&self) -> bool {
        let comment = self.fields[0].starts_with('#');
        comment || self.fields.iter().all(|field| field.is_empty())
    }

    /// What is told of a row that begins as a comment does.
    fn hidden(&self) -> Option<LineError> {
        let fields = self.fields.iter().map(|field| &**field);
        hidden(fields).map(|what| LineError::new(self.line, what))
    }
}

/// The records of a text.
#[derive(Clone)]
pub struct Records<'a> {
    rest: &'a str,
    line: usize,
    separator: char,
}

impl<'a> Records<'a> {
    /// The records of a text whose first line has this number.
    pub fn new(rest: &'a str, line: usize, separator: char) -> Records<'a> {
        Records {
            rest,
            line,
            separator,
        }
    }

    /// What is left, without the blanks that it begins with.
    fn past_blanks(&self) -> &'a str {
        let blank = |sign: char| {
            sign.is_whitespace() && sign != self.separator && !LINE_ENDS.contains(&sign)
        };
        self.rest.trim_start_matches(blank)
    }

    /// Takes so many bytes away, with the lines that end in them.
    fn take(&mut self, length: usize) -> &'a str {
        let (taken, rest) = self.rest.split_at(length);
        self.line += lines_in(taken);
        self.rest = rest;
        taken
    }

    /// Takes the rest of the line away, but not its end.
    fn take_line(&mut self) -> &'a str {
        let length = self.rest.find(LINE_ENDS);
        self.take(length.unwrap_or(self.rest.len()))
    }

    /// Takes the end of a line away, if there is one.
    fn take_line_end(&mut self) {
        let crlf = self.rest.starts_with("\r\n");
        let length = if crlf { 2 } else { self.rest.len().min(1) };
        self.take(length);
    }

    /// A field without quotes.
    fn plain(&mut self) -> Cow<'a, str> {
        let ends = [self.separator, LINE_ENDS[0], LINE_ENDS[1]];
        let length = self.rest.find(ends).unwrap_or(self.rest.len());
        Cow::Borrowed(self.take(length).trim())
    }

    /// A field in quotes, up to what ends it.
    fn quoted(&mut self) -> Result<Cow<'a, str>, LineError> {
        let begins = self.line;
        let mut field = String::new();
        self.take(1);
        while let Some(length) = self.rest.find('"') {
            field.push_str(self.take(length));
            self.take(1);
            if !self.rest.starts_with('"') {
                self.closed()?;
                return Ok(Cow::Owned(field.trim().to_string()));
            }
            field.push_str(self.take(1));
        }
        self.take(self.rest.len());
        let what = "a quote begins here that is not closed".to_string();
        Err(LineError::new(begins, what))
    }

    /// Holds what stands after a closing quote to blanks.
    fn closed(&mut self) -> Result<(), LineError> {
        let line = self.line;
        match self.plain() {
            rest if rest.is_empty() => Ok(()),
            rest => {
                self.take_line();
                let what = format!(
                    "{} stands after a closing quote; a quote within quotes is doubled",
                    shown(&rest)
                );
                Err(LineError::new(line, what))
            }
        }
    }

    /// The next field, and whether another follows it in the line.
    fn field(&mut self) -> Result<(Cow<'a, str>, bool), LineError> {
        let begin = self.past_blanks();
        let field = match begin.starts_with('"') {
            true => {
                self.rest = begin;
                self.quoted()?
            }
            false => self.plain(),
        };
        let more = self.rest.starts_with(self.separator);
        if more {
            self.take(1);
        }
        Ok((field, more))
    }

    /// Takes a comment away, if one begins here; a row that begins as one is told.
    fn take_comment(&mut self) -> Result<(), LineError> {
        if !self.past_blanks().starts_with('#') {
            return Ok(());
        }
        let (line, text) = (self.line, self.take_line());
        match hidden(text.split(self.separator).map(str::trim)) {
            Some(what) => {
                self.take_line_end();
                Err(LineError::new(line, what))
            }
            None => Ok(()),
        }
    }

    /// The fields of the next line.
    fn record(&mut self) -> Result<Record<'a>, LineError> {
        let (line, mut fields, mut more) = (self.line, Vec::new(), true);
        while more {
            let field = self.field();
            let (field, another) = field.inspect_err(|_| self.take_line_end())?;
            fields.push(field);
            more = another;
        }
        self.take_line_end();
        Ok(Record { line, fields })
    }
}

impl<'a> Iterator for Records<'a> {
    type Item = Result<Record<'a>, LineError>;

    fn next(&mut self) -> Option<Self::Item> {
        while !self.rest.is_empty() {
            if let Err(fault) = self.take_comment() {
                return Some(Err(fault));
            }
            match self.record() {
                Ok(record) if record.passed_over() => match record.hidden() {
                    Some(fault) => return Some(Err(fault)),
                    None => continue,
                },
                record => return Some(record),
            }
        }
        None
    }
}
