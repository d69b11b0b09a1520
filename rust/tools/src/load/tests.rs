//! Text and packed bytes told apart, and refusals with their places.

use super::*;
use books::csv::HEADER;
use books::options::csv::HEADER as OPTION_HEADER;
use books::Book;

const ROW: &str = "fx,1,none,0,0,0,5,0\n";
const GOLD: &str = "fx,0,bought call,none,100,5000,0,0,0,0\n";

fn refusal(number: u64, row: u64) -> Refusal {
    let book = 0;
    Refusal { number, row, book }
}

/// Catches a book that is taken for text, and text of any beginning that is taken for a book.
#[test]
fn text_is_told_from_packed_bytes() {
    for text in [
        &b"class,group,kind"[..],
        b"\xef\xbb\xbfclass;group",
        b"\r\n\r\n\r\n\r\n\r\n",
        b"\"Class\"\tx",
        b"# caf\xe9 12",
        b"abcdefgh\0",
        b"\xff\xfec\0l\0a\0s\0",
        b"\xfe\xff\0c\0l\0a\0s",
    ] {
        assert!(is_text(text), "{text:?}");
    }
    let contents = b"abcdefgh";
    let mut books = vec![&b""[..], b"class", contents, &[0; 24], b"\xff\xfec\0l\0a\0"];
    let odd: Vec<Vec<u8>> = (0..8)
        .map(|at| [&contents[..at], &[0], &contents[at..]].concat())
        .collect();
    books.extend(odd.iter().map(|book| &book[..]));
    for book in books {
        assert!(!is_text(book), "{book:?}");
    }
}

/// Catches an accepted book or table that is taken for text: the least counts that are bytes of text, and
/// those of UTF-16, are too many.
#[test]
fn no_accepted_book_begins_as_text_does() {
    let first = (0..=255u8).find(|byte| text_byte(*byte)).unwrap();
    for head in [
        [first; 8],
        *b"\xff\xfe\t\0\t\0\t\0",
        *b"\xfe\xff\0\t\0\t\0\t",
    ] {
        assert!(is_text(&[&head[..], &[0]].concat()), "{head:?}");
        assert_eq!(market_risk::check(&head).unwrap_err().number, 2);
        let count = u16::from_le_bytes([head[0], head[1]]);
        assert!(usize::from(count) > MOST_OPTIONS);
    }
}

/// Catches a row that is told of text, a line that is told of bytes, and the line of another row.
#[test]
fn refusals_name_the_line_or_the_row() {
    let given = book(&format!("{HEADER}\n{ROW}\ninterest,1,other,0,0,0,0,0\n")).unwrap();
    let (eight, reason) = (refusal(8, 0), refusal(8, 0).reason());
    for (row, line) in [(0, 4), (1, 2)] {
        let told = given.refused(&refusal(8, row));
        assert_eq!(told, format!("line {line}: refused 8: {reason}"));
    }
    assert_eq!(
        [0, 1, 2].map(|row| given.place(row)),
        ["line 4", "line 2", "row 2"]
    );
    let ten = refusal(10, 0);
    assert_eq!(given.refused(&ten), ten.to_string());
    let bytes = Given::of_bytes(given.bytes);
    assert_eq!(bytes.refused(&eight), eight.to_string());
    assert_eq!(bytes.place(1), "row 1");
    assert!(!bytes.is_text());
}

/// Catches a class that has its own count of lines, a line that is one off, and the last row of the file in
/// the place of the last line: the row that is too many comes first in the file.
#[test]
fn one_row_too_many_names_its_line() {
    let most = ROW.repeat(MOST_ROWS);
    let given = book(&format!("{HEADER}\n{most}interest,1,other,0,0,0,5,0\n")).unwrap();
    let told = given.refused(&market_risk::check(&given.bytes).unwrap_err());
    assert!(told.starts_with("line 4002: refused 2: "), "{told}");
    let given = option_table(&format!("{OPTION_HEADER}\n{}", GOLD.repeat(1_001))).unwrap();
    let told = given.refused(&refusal(16, 0));
    assert!(told.starts_with("line 1002: refused 16: "), "{told}");
    let told = book(&format!("{HEADER}\n{}", ROW.repeat(65_536))).unwrap_err();
    let many = "line 4002: the text has 65,536 rows, and 4,000 are the most";
    assert_eq!(told.to_string(), many);
    let told = option_table(&format!("{OPTION_HEADER}\n{}", GOLD.repeat(65_536))).unwrap_err();
    let many = "line 1002: the text has 65,536 rows, and 1,000 are the most";
    assert_eq!(told.to_string(), many);
}

/// Whether each fault is told with its line.
fn told_by_line(why: &Unread) -> bool {
    match why {
        Unread::Whole(_) => false,
        Unread::Lines(faults) => faults
            .to_string()
            .lines()
            .all(|line| line.starts_with("line ")),
    }
}

/// Catches a file of which more is taken than there may be, and a limit that is one off.
#[test]
fn text_has_a_most() {
    let read = |sort: &Sort, text: String, length: usize| {
        let comment = "#".repeat(length - text.len());
        Given::of_file([text, comment].concat().into_bytes(), sort)
    };
    let text = || format!("{HEADER}\n{ROW}");
    assert!(read(&BOOK, text(), 4_000_000).is_ok());
    let most = "more than 4,000,000 bytes, the most for the text of 4,000 rows";
    let told = read(&BOOK, text(), 4_000_001).unwrap_err();
    assert_eq!(told, Unread::Whole(most.into()));
    let text = || format!("{OPTION_HEADER}\n{GOLD}");
    assert!(read(&OPTIONS, text(), 1_000_000).is_ok());
    assert!(read(&OPTIONS, text(), 1_000_001).is_err());
    assert_eq!([BOOK.most_bytes, OPTIONS.most_bytes], [64_008, 18_002]);
    assert_eq!(BOOK.length(&[0; 64_008]), "64,008");
    assert_eq!(BOOK.length(&[0; 64_009]), "more than 64,008");
}

/// Catches a text that is cut or damaged anywhere and then ends in a panic, or is a book that no text is.
#[test]
fn damaged_text_is_read_or_told() {
    let text = format!(
        "sep=;\r\n{}\r\n\"fx\";1;none;;;;5;0\r\n",
        HEADER.replace(',', ";")
    );
    let mut bytes = text.into_bytes();
    for at in 0..bytes.len() {
        let cut = Given::of_file(bytes[..at].to_vec(), &BOOK);
        assert!(cut.is_err() || at <= 8 || Book::decode(&cut.unwrap().bytes).is_some());
        let whole = bytes[at];
        for byte in 0..=255 {
            bytes[at] = byte;
            if let Err(told) = Given::of_file(bytes.clone(), &BOOK) {
                assert!(told_by_line(&told) || foreign(&bytes).is_some());
            }
        }
        bytes[at] = whole;
    }
}
