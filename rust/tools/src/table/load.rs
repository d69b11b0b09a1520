//! The table that a command works under.

use super::conditions::accepted;
use crate::cli::{Args, Failure};
use crate::files::{once, read};
use crate::forms;
use crate::load::{foreign, note, unread, Unread};
use crate::name::name;
use books::csv::utf_16;
use books::tables::text::{parse, write};
use books::tables::{self, TABLE_BYTES};
use market_risk::Table;
use std::path::{Path, PathBuf};

/// The two forms of a table: 36 bytes, or text.
#[derive(Clone, Copy, Debug, PartialEq, Eq)]
pub enum Form {
    Bytes,
    Text,
}

/// The most bytes of a table's text, with comments and all.
const MOST_TEXT: usize = 64_000;

/// The form of a file. No text of 36 bytes is a table: its first line alone has 37.
fn form(file: &[u8]) -> Form {
    let printed = |byte: &u8| !byte.is_ascii_control() || byte.is_ascii_whitespace();
    let text = file.iter().all(printed) && std::str::from_utf8(file).is_ok();
    match text && !file.is_empty() && file.len() != TABLE_BYTES {
        true => Form::Text,
        false => Form::Bytes,
    }
}

/// The table of a file in either form, or why it has none.
fn table_of(file: &[u8]) -> Result<(Table, Form), Unread> {
    if file.len() > MOST_TEXT {
        let what = "more than 64,000 bytes, and a table is 36, or text of seven lines";
        return Err(what.to_string().into());
    }
    match (form(file), std::str::from_utf8(file)) {
        (Form::Text, Ok(text)) => Ok((accepted(&parse(text)?.encode())?, Form::Text)),
        _ => match accepted(file) {
            Ok(table) => Ok((table, Form::Bytes)),
            Err(why) => Err(of_bytes(file, why).into()),
        },
    }
}

/// What is told of bytes that are no table: what they are where that is known, else their refusal.
fn of_bytes(file: &[u8], refused: String) -> String {
    match foreign(file) {
        Some(what) => what.into(),
        None if utf_16(file) => "UTF-16 text: save it as UTF-8".into(),
        None => refused,
    }
}

/// Reads a table in either form.
pub fn read_table(path: &Path) -> Result<(Table, Form), Failure> {
    table_of(&read(path, |_| MOST_TEXT)?).map_err(|why| unread(path, &why))
}

/// A table and, where it was read, its file.
pub struct Loaded {
    pub table: Table,
    file: Option<PathBuf>,
}

impl Default for Loaded {
    /// Document 01's, which is not read.
    fn default() -> Loaded {
        Loaded {
            table: Table::amendment(),
            file: None,
        }
    }
}

impl Loaded {
    /// The table that the option --table names, else document 01's.
    pub fn new(args: &Args, book: &Path) -> Result<Loaded, Failure> {
        let Some(path) = args.path("--table") else {
            return Ok(Loaded::default());
        };
        once(&[book, path])?;
        Ok(Loaded {
            table: read_table(path)?.0,
            file: Some(path.into()),
        })
    }

    /// Tells on standard error, beside CSV text, which has no place for it, that the table is not document
    /// 01's.
    pub fn note_beside(&self, form: forms::Form) {
        if let (Some(file), forms::Form::Csv, false) = (&self.file, form, self.note().is_empty()) {
            note(file, "figures are under this table, not document 01's");
        }
    }

    /// What is printed above the figures under a table that is not document 01's, in lines of at
    /// most 100 columns.
    pub fn note(&self) -> String {
        match &self.file {
            Some(file) if self.table != Table::amendment() => {
                let text = text_of(&self.table);
                let (weights, per_cents) = text.split_once('\n').unwrap_or_default();
                let per_cents = per_cents.trim_end().replace('\n', ", ");
                let name = name(file);
                format!("under {name}, not document 01's table:\n{weights}\n{per_cents}\n\n")
            }
            _ => String::new(),
        }
    }
}

/// A table as text.
pub fn text_of(table: &Table) -> String {
    let fields = tables::Table::decode(table.bytes());
    write(&fields.expect("a table has 36 bytes"))
}

#[cfg(test)]
mod tests {
    use super::*;
    use crate::text::COLUMNS;

    /// What is printed above the figures under a table of a file.
    fn note(table: Table, file: Option<&str>) -> String {
        let file = file.map(PathBuf::from);
        Loaded { table, file }.note()
    }

    #[test]
    fn forms_are_told_apart() {
        let text = text_of(&Table::amendment());
        for text in [&text[..], "# a comment\r\n\tweights\n", "x", "é"] {
            assert_eq!(form(text.as_bytes()), Form::Text, "{text}");
        }
        let bytes: [&[u8]; 5] = [&[], &[b'0'; 36], &[0; 35], &[b'0', 0], b"\xe9"];
        for bytes in bytes {
            assert_eq!(form(bytes), Form::Bytes, "{bytes:?}");
        }
    }

    /// The shortest text of a table is longer than 36 bytes.
    #[test]
    fn no_text_of_36_bytes_is_a_table() {
        let shortest = text_of(&Table::new(&[0; 36]).unwrap());
        let (first, _) = shortest.split_once('\n').unwrap();
        assert_eq!(first.len(), 37);
    }

    #[test]
    fn both_forms_of_a_table_are_read() {
        let table = Table::amendment();
        let text = text_of(&table);
        assert_eq!(table_of(table.bytes()), Ok((table, Form::Bytes)));
        assert_eq!(table_of(text.as_bytes()), Ok((table, Form::Text)));
        let broken = text.replace("vertical 10", "vertical 31");
        let told = |text: &str| match table_of(text.as_bytes()).unwrap_err() {
            Unread::Whole(what) => what,
            Unread::Lines(faults) => faults.to_string(),
        };
        assert!(told(&broken)
            .ends_with("\nvertical is 31%, over zone-2's 30%\nvertical is 31%, over zone-3's 30%"));
        let line = "line 2: the line of vertical is wanted here, not 'horizontal'";
        assert_eq!(told(&text.replace("vertical", "horizontal")), line);
        let long = format!("{text}#{}", " ".repeat(MOST_TEXT));
        assert!(table_of(&long.as_bytes()[..MOST_TEXT]).is_ok());
        assert!(told(&long[..=MOST_TEXT]).starts_with("more than 64,000 bytes"));
    }

    /// Catches a loaded table that is not told of, and document 01's that is.
    #[test]
    fn a_note_stands_where_the_table_is_not_document_01s() {
        let other = Table::new(&[0; 36]).unwrap();
        assert_eq!(note(Table::amendment(), None), "");
        assert_eq!(note(Table::amendment(), Some("own")), "");
        let expected = [
            "under own, not document 01's table:",
            "weights 0 0 0 0 0 0 0 0 0 0 0 0 0 0 0",
            "vertical 0, zone-1 0, zone-2 0, zone-3 0, adjacent 0, zones-1-3 0",
            "",
        ];
        let note = note(other, Some("own"));
        assert_eq!(note.lines().collect::<Vec<_>>(), expected);
    }

    /// Catches a note that depends on the folder that the table's file is in, and one that a file's
    /// name breaks or makes too long.
    #[test]
    fn a_note_fits_wherever_the_table_is_and_whatever_it_is_called() {
        let dearest = [2_000u16.to_le_bytes().repeat(15), vec![100; 6]].concat();
        let dearest = Table::new(&dearest).unwrap();
        let folder = "a folder of some length/".repeat(9);
        for name in [
            "own",
            "-",
            "a\nb\r\u{1b}",
            &"n".repeat(255),
            &"\n".repeat(255),
        ] {
            let deep = note(dearest, Some(&format!("/{folder}{name}")));
            assert_eq!(deep, note(dearest, Some(&format!("./{name}"))));
            assert_eq!(deep.lines().count(), 4);
            for line in deep.lines() {
                assert!(line.chars().count() <= COLUMNS, "{line}");
                assert!(!line.contains(char::is_control), "{line:?}");
            }
        }
        assert!(note(dearest, Some("-")).starts_with("under standard input, not "));
    }
}
