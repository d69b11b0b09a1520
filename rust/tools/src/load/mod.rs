//! A book or an option table as a command is given it: CSV text or packed bytes, told apart by content, and
//! read no further than the largest that is accepted.

mod foreign;
mod notes;
mod unread;

#[cfg(test)]
mod tests;

use crate::cli::Failure;
use crate::files::read;
use crate::text::whole;
use books::csv::{self, text_byte, text_of, utf_16, Faults, LineError};
use books::options::{self, COUNT_BYTES, MOST_OPTIONS, OPTION_BYTES};
use books::{MOST_ROWS, ROW_BYTES};
use market_risk::Refusal;
use std::path::Path;

pub use foreign::foreign;
pub use notes::{note, of_options};
pub use unread::{unread, Unread};

/// The bytes of text that a row may take, with comments and all.
const TEXT_BYTES: usize = 1_000;

/// What a command reads: how much of it is read at most, and what makes bytes of its text.
pub struct Sort {
    /// The bytes of the largest that is accepted.
    pub most_bytes: usize,
    most_rows: usize,
    pack: fn(&str) -> Result<Given, Faults>,
    /// Whether bytes are of it, packed: an accepted book, or a table whose length agrees with its count.
    packed: fn(&[u8]) -> bool,
}

pub const BOOK: Sort = Sort {
    most_bytes: 8 + ROW_BYTES * MOST_ROWS,
    most_rows: MOST_ROWS,
    pack: book,
    packed: |file| market_risk::check(file).is_ok(),
};

pub const OPTIONS: Sort = Sort {
    most_bytes: COUNT_BYTES + OPTION_BYTES * MOST_OPTIONS,
    most_rows: MOST_OPTIONS,
    pack: option_table,
    packed: |file| options::decode(file).is_some(),
};

impl Sort {
    /// The most bytes of its text.
    fn most_text(&self) -> usize {
        TEXT_BYTES * self.most_rows
    }

    /// A length in words, of bytes that were read as far as the largest that is accepted and one more.
    pub fn length(&self, bytes: &[u8]) -> String {
        match bytes.len() > self.most_bytes {
            true => format!("more than {}", whole(self.most_bytes as u64)),
            false => whole(bytes.len() as u64),
        }
    }
}

/// Whether a file is text. It is when its first eight bytes are all bytes of text and more follow, or when
/// it begins as UTF-16 does, which is then told. No accepted book begins so: each of its four counts would
/// be at least 0x0909, together over 4,000 rows. Nor does an option table, whose count would be over 1,000.
/// Eight bytes alone are a book, whatever they are: the shortest file for refusal 2.
fn is_text(file: &[u8]) -> bool {
    let head = file.first_chunk::<8>().filter(|_| file.len() > 8);
    head.is_some_and(|head| head.iter().copied().all(text_byte) || utf_16(head))
}

/// What is told of a text of so many rows that they have no count.
fn too_many(mut lines: Vec<usize>, rows: usize) -> Faults {
    let (count, most) = (whole(lines.len() as u64), whole(rows as u64));
    lines.sort_unstable();
    let line = lines.get(rows).copied().unwrap_or_default();
    let what = format!("the text has {count} rows, and {most} are the most");
    LineError::new(line, what).into()
}

/// The bytes of a book or an option table and, where it was text, the line of each row.
#[derive(Debug, PartialEq, Eq)]
pub struct Given {
    pub bytes: Vec<u8>,
    lines: Option<Vec<usize>>,
}

/// The book of CSV text.
pub fn book(text: &str) -> Result<Given, Faults> {
    let parsed = csv::parse(text)?;
    match parsed.book.encode() {
        Some(bytes) => Ok(Given::of_lines(bytes, parsed.lines)),
        None => Err(too_many(parsed.lines, MOST_ROWS)),
    }
}

/// The option table of CSV text.
pub fn option_table(text: &str) -> Result<Given, Faults> {
    let parsed = options::csv::parse(text)?;
    match options::encode(&parsed.options) {
        Some(bytes) => Ok(Given::of_lines(bytes, parsed.lines)),
        None => Err(too_many(parsed.lines, MOST_OPTIONS)),
    }
}

impl Given {
    /// Packed bytes, accepted or not.
    pub fn of_bytes(bytes: Vec<u8>) -> Given {
        let lines = None;
        Given { bytes, lines }
    }

    /// The bytes of text, whose rows came from these lines.
    fn of_lines(bytes: Vec<u8>, lines: Vec<usize>) -> Given {
        let lines = Some(lines);
        Given { bytes, lines }
    }

    /// A file of text.
    fn of_text(file: &[u8], sort: &Sort) -> Result<Given, Unread> {
        let most = sort.most_text();
        if let Some(what) = foreign(file) {
            return Err(what.to_string().into());
        }
        if file.len() > most {
            let [most, rows] = [most, sort.most_rows].map(|count| whole(count as u64));
            let what = format!("more than {most} bytes, the most for the text of {rows} rows");
            return Err(what.into());
        }
        if !is_text(file) && (sort.packed)(file) {
            return Err("it is packed already, and text is wanted"
                .to_string()
                .into());
        }
        let text = text_of(file).map_err(Faults::from)?;
        Ok((sort.pack)(text)?)
    }

    /// A file in either form.
    fn of_file(file: Vec<u8>, sort: &Sort) -> Result<Given, Unread> {
        match (is_text(&file), foreign(&file)) {
            (true, _) => Given::of_text(&file, sort),
            (false, Some(what)) => Err(what.to_string().into()),
            (false, None) => Ok(Given::of_bytes(file)),
        }
    }

    /// Whether it was text.
    pub fn is_text(&self) -> bool {
        self.lines.is_some()
    }

    /// A row by its line, where it was text, or by its number.
    pub fn place(&self, row: usize) -> String {
        match self.lines.as_ref().and_then(|lines| lines.get(row)) {
            Some(line) => format!("line {line}"),
            None => format!("row {row}"),
        }
    }

    /// The line that a refusal is of: the bad row's, or the first of all that is too many.
    pub fn line_of(&self, refusal: &Refusal) -> Option<usize> {
        let mut lines = self.lines.clone()?;
        let at = match refusal.number {
            2 => MOST_ROWS,
            16 => MOST_OPTIONS,
            _ if refusal.names_row() => return lines.get(refusal.row as usize).copied(),
            _ => return None,
        };
        lines.sort_unstable();
        lines.get(at).copied()
    }

    /// A refusal, of text with the line in the place of the row.
    pub fn refused(&self, refusal: &Refusal) -> String {
        let (number, reason) = (refusal.number, refusal.reason());
        match self.line_of(refusal) {
            Some(line) => format!("line {line}: refused {number}: {reason}"),
            None => refusal.to_string(),
        }
    }
}

/// Reads a file of a sort in either form; all that is wrong is told with its name.
fn read_either(path: &Path, sort: &Sort) -> Result<Given, Failure> {
    let most = |head: &[u8]| match is_text(head) {
        true => sort.most_text(),
        false => sort.most_bytes,
    };
    Given::of_file(read(path, most)?, sort).map_err(|why| unread(path, &why))
}

/// Reads a book in either form.
pub fn read_book(path: &Path) -> Result<Given, Failure> {
    read_either(path, &BOOK)
}

/// The same of a book whose figures are printed: what looks wrong with it is told beside them.
pub fn read_noted(path: &Path) -> Result<Given, Failure> {
    let given = read_book(path)?;
    notes::of_book(path, &given.bytes);
    Ok(given)
}

/// Reads an option table in either form.
pub fn read_options(path: &Path) -> Result<Given, Failure> {
    read_either(path, &OPTIONS)
}

/// Reads what must be text, as far as text may go however it begins: none is cut and then taken.
pub fn read_text(path: &Path, sort: &Sort) -> Result<Given, Failure> {
    let file = read(path, |_| sort.most_text())?;
    Given::of_text(&file, sort).map_err(|why| unread(path, &why))
}
