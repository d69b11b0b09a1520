//! Random books written in every way that is read: all come back as they were.

use super::*;
use crate::Random;

/// How a text is written.
struct Dialect {
    separator: &'static str,
    line_end: &'static str,
    /// The columns of the header in the order in which they are written.
    order: Vec<usize>,
    /// Empty columns at the end of each line.
    past: usize,
}

impl Dialect {
    fn new(random: &mut Random) -> Dialect {
        let mut order: Vec<usize> = (0..8).collect();
        random.shuffle(&mut order);
        Dialect {
            separator: random.pick(&[",", ";", "\t"]),
            line_end: random.pick(&["\n", "\r\n", "\r"]),
            order,
            past: random.below(3) as usize,
        }
    }

    /// The fields of one line, each written in one of its ways.
    fn line(&self, random: &mut Random, fields: &[&str]) -> String {
        let written = |at: &usize| one(random, may_be_empty(fields[0], *at), fields[*at]);
        let mut written: Vec<String> = self.order.iter().map(written).collect();
        written.extend(vec![String::new(); self.past]);
        written.join(self.separator) + self.line_end
    }

    /// Lines that are passed over.
    fn nothing(&self, random: &mut Random) -> String {
        let line = match random.below(6) {
            0 => String::new(),
            1 => self.separator.repeat(7 + self.past),
            2 => "# it's \"said, or; not".into(),
            3 => format!("\"# a{}b\"{}", self.separator, self.separator),
            _ => return String::new(),
        };
        line + self.line_end
    }
}

/// Whether the field of a column may be left empty for 0, by the class of its line: the issue, and days
/// and coupon where there are none.
fn may_be_empty(class: &str, column: usize) -> bool {
    match column {
        3 => class == "equity" || class == "fx",
        4 => class != "interest",
        column => column == 5,
    }
}

/// A field in one of its ways: in another case, in quotes, with blanks, or empty for 0 where it may be.
fn one(random: &mut Random, may_be_empty: bool, field: &str) -> String {
    let field = match random.below(3) {
        0 if may_be_empty && field == "0" => String::new(),
        1 => field.to_uppercase(),
        _ => field.into(),
    };
    match random.below(4) {
        0 => format!("\"{field}\""),
        1 => format!(" {field} "),
        2 => format!(" \"{field} \" "),
        _ => field,
    }
}

/// A row of any bytes, often with zeros in the fields that may be left empty.
fn any_row(random: &mut Random) -> Row {
    let mut bytes = [0; crate::ROW_BYTES];
    bytes.fill_with(|| random.below(256) as u8);
    bytes[1] %= 6;
    if random.once_in(2) {
        bytes[2..8].fill(0);
    }
    Row::decode(&bytes)
}

/// A book of a few rows.
fn any_book(random: &mut Random) -> Book {
    let mut book = Book::default();
    for _ in 0..random.below(12) {
        book.classes[random.below(4) as usize].push(any_row(random));
    }
    book
}

/// A book in a dialect, after its plain text.
fn spoken(random: &mut Random, dialect: &Dialect, plain: &str) -> String {
    let mut text = String::from(random.pick(&["", "\u{feff}"]));
    if random.once_in(4) {
        text += &format!("sep={}{}", dialect.separator, dialect.line_end);
    }
    for line in plain.lines() {
        text += &dialect.nothing(random);
        let fields: Vec<&str> = line.split(',').collect();
        text += &dialect.line(random, &fields);
    }
    text + &dialect.nothing(random)
}

/// Catches a column in the place of another, an empty field that is not 0, and a line that is lost or told
/// of another row.
#[test]
fn every_dialect_gives_the_book_of_the_plain_text() {
    let mut random = Random::new(25);
    for _ in 0..20_000 {
        let book = any_book(&mut random);
        let plain = write(&book);
        assert_eq!(parse(&plain).unwrap().book, book);
        let dialect = Dialect::new(&mut random);
        let text = spoken(&mut random, &dialect, &plain);
        let parsed = parse(&text).unwrap_or_else(|faults| panic!("{faults}\n{text:?}"));
        assert_eq!(parsed.book, book, "{text:?}");
        let lines: Vec<&str> = text.split(dialect.line_end).collect();
        assert_eq!(parsed.lines.len(), book.rows());
        for (row, line) in book.classes.iter().flatten().zip(parsed.lines) {
            assert!(lines[line - 1].contains(&row.long.to_string()), "{text:?}");
        }
    }
}

/// The sample that is written as a spreadsheet does.
const SAMPLE: &[u8] = include_bytes!("../../../../samples/spreadsheet.csv");

/// A text from bytes, read as far as it can be: what is wrong has words.
fn read(bytes: &[u8]) {
    let told = match text_of(bytes) {
        Ok(text) => parse(text).map_err(|faults| faults.to_string()),
        Err(fault) => Err(fault.to_string()),
    };
    if let Err(told) = told {
        assert!(told.starts_with("line "), "{told}");
    }
}

/// Catches a text that is cut anywhere and ends in a panic.
#[test]
fn every_prefix_is_read_or_told() {
    for length in 0..=SAMPLE.len() {
        read(&SAMPLE[..length]);
    }
}

/// Catches a byte anywhere that ends in a panic.
#[test]
fn every_damaged_byte_is_read_or_told() {
    let mut bytes = SAMPLE.to_vec();
    for at in 0..bytes.len() {
        let whole = bytes[at];
        for byte in 0..=255 {
            bytes[at] = byte;
            read(&bytes);
        }
        bytes[at] = whole;
    }
}
