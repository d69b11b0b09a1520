//! A book that the library has written, held to the rows that it should have; the form in which a command
//! writes it, packed or as CSV text; and lines about it on standard output.

use crate::cli::{no, usage, Args, Choice, Failure};
use crate::files::{is_output, write};
use crate::report::fields;
use crate::text::whole;
use books::names::CLASS_NAMES;
use books::{csv, Book, Row};
use std::os::unix::ffi::OsStrExt;
use std::path::Path;

/// The option of each command that writes a book.
pub const CSV: Choice = Choice::flag(
    "--csv",
    "writes the book as CSV text, as market-risk unpack does, whatever its name; without --csv it \
     is text where the name of its file ends in .csv, in any case, and packed otherwise. Text that \
     does not give the same bytes again is not written, and the exit status is 1",
);

/// What of a class is not as it should be, in a book that was netted, offset or written, by a book or by
/// options.
pub fn unlike(
    [done, by]: [&str; 2],
    class: usize,
    own: &[Row],
    expected: &[Row],
) -> Option<String> {
    let name = CLASS_NAMES[class];
    if let Some(at) = (0..own.len().min(expected.len())).find(|at| own[*at] != expected[*at]) {
        let [own, expected] = [own[at], expected[at]].map(|row| fields(class, &row));
        return Some(format!(
            "{done}, {name} row {at} is by the library {own}, by the {by} {expected}"
        ));
    }
    let (own, expected) = (own.len(), expected.len());
    (own != expected)
        .then(|| format!("{name} has {expected} rows {done}, the library's book {own}"))
}

/// A line that an option prints must not run into a book on standard output.
pub fn apart_from_line(to: &Path, option: Option<&str>, book: &str) -> Result<(), Failure> {
    match option {
        Some(option) if is_output(to) => Err(usage(&format!(
            "{option} prints on standard output, where the {book} book goes"
        ))),
        _ => Ok(()),
    }
}

/// The line of a file that is written, by its length.
pub fn length_line(to: &Path, length: usize) -> String {
    format!("{}: {} bytes\n", to.display(), whole(length as u64))
}

/// Whether a name is that of CSV text: it ends in .csv, in any case.
pub fn names_text(path: &Path) -> bool {
    let name = path.as_os_str().as_bytes();
    let end = name.last_chunk::<4>();
    end.is_some_and(|end| end.eq_ignore_ascii_case(b".csv"))
}

/// A book as text by this writer, if the text gives the same bytes again.
fn as_text(book: &[u8], write: fn(&Book) -> String) -> Option<String> {
    let text = write(&Book::decode(book)?);
    let again = csv::parse(&text).ok()?.book.encode()?;
    (again == book).then_some(text)
}

/// Where a command writes a book, and in which form.
pub struct Out<'a> {
    pub to: &'a Path,
    /// Whether `--csv` asks for text.
    asked: bool,
}

impl<'a> Out<'a> {
    /// The output of a command line that names this file.
    pub fn new(args: &Args, to: &'a Path) -> Out<'a> {
        let asked = args.flag(CSV.name);
        Out { to, asked }
    }

    /// The file of `-o`, if it is given, of a command that prints on standard output what is told.
    pub fn beside(
        args: &'a Args,
        [command, printed]: [&str; 2],
    ) -> Result<Option<Out<'a>>, Failure> {
        let to = args.path("-o");
        let wrong = |what: String| Err(usage(&format!("{command}: {what}")));
        match to {
            None if args.flag(CSV.name) => wrong("--csv is of -o, which is not given".into()),
            Some(to) if is_output(to) => wrong(format!(
                "-o is standard output, where {printed}; name a file"
            )),
            _ => Ok(to.map(|to| Out::new(args, to))),
        }
    }

    /// Whether the book is written as text.
    pub fn is_text(&self) -> bool {
        self.asked || names_text(self.to)
    }

    /// What to do for a packed file in the place of text.
    pub fn instead(&self) -> &'static str {
        match (self.asked, names_text(self.to)) {
            (true, true) => "leave --csv out, and name one that does not end in .csv",
            (true, false) => "leave --csv out",
            (false, _) => "name one that does not end in .csv",
        }
    }

    /// Writes a book in its form, and gives the length of what is written.
    pub fn write(&self, book: &[u8]) -> Result<usize, Failure> {
        let why = "the book's text would be read as another book; nothing is written";
        let file = match self.is_text() {
            true => as_text(book, csv::write).ok_or_else(|| no(why))?.into(),
            false => book.to_vec(),
        };
        write(self.to, &file).map(|()| file.len())
    }
}

#[cfg(test)]
mod tests {
    use super::*;

    /// Catches a case that is not taken, and an end that is not all of .csv.
    #[test]
    fn names_of_text_end_in_csv() {
        for name in ["a.csv", "a.CSV", "b/a.b.Csv", ".csv", "caf\u{e9}.csv"] {
            assert!(names_text(Path::new(name)), "{name}");
        }
        for name in [
            "",
            "-",
            "csv",
            "acsv",
            "a.csv.book",
            "a.csv ",
            "a.cs",
            "b.csv/a",
        ] {
            assert!(!names_text(Path::new(name)), "{name}");
        }
    }

    /// A book of a row of each class, of which one is refused for its kind.
    fn book() -> Vec<u8> {
        let row = Row::default().with_group(7).with_days(90);
        let row = row.with_coupon(800).with_issue(5).with_sides(1, 2);
        let kinds = [4, 1, 9, 0];
        let classes = kinds.map(|kind| vec![row.with_kind(kind)]);
        Book { classes }.encode().unwrap()
    }

    #[test]
    fn text_gives_the_bytes_again() {
        let text = as_text(&book(), csv::write).unwrap();
        assert_eq!(text.lines().count(), 5);
        assert_eq!(csv::parse(&text).unwrap().book.encode(), Some(book()));
        assert_eq!(as_text(&[0; 8], csv::write).unwrap().lines().count(), 1);
    }

    /// Catches text that is written without being read again, by each field that a writer may get wrong.
    #[test]
    fn text_of_another_book_is_none() {
        let wrong: [fn(&Book) -> String; 6] = [
            |_| csv::write(&Book::default()),
            |_| String::new(),
            |book| csv::write(book).replace(",1,2\n", ",2,1\n"),
            |book| csv::write(book).replacen(",90,", ",91,", 1),
            |book| csv::write(book).replace("floating", "other"),
            |book| csv::write(book) + "fx,1,none,0,0,0,5,0\n",
        ];
        for (at, write) in wrong.into_iter().enumerate() {
            assert_eq!(as_text(&book(), write), None, "{at}");
        }
        for bytes in [&[][..], &[1, 0, 0, 0, 0, 0, 0, 0], &book()[..71]] {
            assert_eq!(as_text(bytes, csv::write), None);
        }
    }

    /// Catches text that is written without this check: the folder is not there, which is told otherwise.
    #[test]
    fn text_of_no_book_is_not_written() {
        let to = Path::new("no such folder/x.csv");
        let out = Out { to, asked: false };
        assert_eq!(out.write(&book()).unwrap_err().status, 2);
        let told = out.write(&book()[..71]).unwrap_err();
        assert!(told.status == 1 && told.message.ends_with("; nothing is written"));
    }
}
