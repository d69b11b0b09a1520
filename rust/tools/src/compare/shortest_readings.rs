//! A reading of the shortest file that shows a refusal, right or wrong on purpose.

use books::{Book, Row, ROW_BYTES};
use second::Refusal;

/// What is wrong with showing a refusal.
#[derive(Clone, Copy, Debug, PartialEq)]
pub enum Wrong {
    /// Nothing: the reading is right.
    Nothing,
    /// The row stands in the first class, whatever its own.
    FirstClass,
    /// The last bad row is shown.
    LastBad,
    /// The row is found by its place in its class.
    PlaceInClass,
    /// The row is found by the low byte of its number.
    LowByte,
    /// The first row of a class is put into the class before it.
    ClassBefore,
    /// The count of the row's class stays.
    CountKept,
    /// The counts of the other classes stay.
    OthersKept,
    /// The row's issue number is left out.
    IssueCleared,
    /// Of a floating-rate note refused with 15 nothing is shown.
    NotesSkipped,
    /// For 2 the bytes behind the contents are written too.
    RowsKept,
    /// For 2 each count is cut to 4,000.
    CountsCut,
    /// For 3 counts of zero stay.
    ZerosKept,
    /// For 3 the counts are always 1, 0, 0, 0.
    OneAlways,
    /// For 3 the last count is made 1 where all are zero.
    LastCount,
    /// For 1 the bytes that there are are written.
    BytesOfOne,
    /// An accepted book has no mark.
    NoMark,
    /// A book refused with 1 has the mark.
    MarkOfOne,
    /// A book refused otherwise has the mark.
    MarkOfOthers,
    /// A refusal with 12 has the mark.
    MarkOfTwelve,
    /// 12 is told of a book refused with 1, or of an accepted one, where eight bytes have no room.
    TwelveOfOne,
    TwelveOfAccepted,
    /// 12 is told so many bytes late.
    Twelve(i64),
    /// 12 is told by the length of the book.
    TwelveOfBook,
    /// A refusal with 12 gives the length that is wanted.
    LengthKept,
    /// A refusal with 12 writes the first byte.
    RefusedWrites,
    /// What has room of the file is written, and no refusal told.
    Truncated,
    /// Bytes past the file are cleared.
    Cleared,
    /// A byte past the file is written.
    PastTheEnd,
    /// The result carries the row of the book.
    RowTold,
    /// The book's own refusal is told as the call's.
    OwnRefusal,
}

/// The classes of the rows of a book, in file order, with the places in their classes.
fn places(book: &Book) -> Vec<(usize, usize)> {
    let classes = book.classes.iter().enumerate();
    let rows = classes.flat_map(|(class, rows)| (0..rows.len()).map(move |at| (class, at)));
    rows.collect()
}

/// The last bad row of a book.
fn last_bad(book: &Book) -> usize {
    let bad = |at: &usize| {
        let (class, row) = book.row(*at).expect("a row of the book");
        let mut alone = Book::default();
        alone.classes[class].push(row);
        !second::check(&alone.encode().expect("one row")).accepted()
    };
    let mut rows = (0..book.rows()).rev();
    rows.find(bad).expect("one row is bad")
}

impl Wrong {
    /// The file for a bad row of a book.
    fn of_row(self, bytes: &[u8], refusal: &Refusal) -> Vec<u8> {
        let book = Book::decode(bytes).expect("the contents are in order");
        let first = refusal.row as usize;
        let at = if self == Wrong::LastBad {
            last_bad(&book)
        } else {
            first
        };
        let (class, place) = places(&book)[at];
        let from = match self {
            Wrong::PlaceInClass => place,
            Wrong::LowByte => at % 256,
            _ => at,
        };
        let row = Row::decode(
            bytes[8 + ROW_BYTES * from..][..ROW_BYTES]
                .try_into()
                .expect("16"),
        );
        let row = if self == Wrong::IssueCleared {
            row.with_issue(0)
        } else {
            row
        };
        let class = match self {
            Wrong::FirstClass => 0,
            Wrong::ClassBefore if place == 0 => class.saturating_sub(1),
            _ => class,
        };
        let mut file = vec![0; 8];
        if self == Wrong::OthersKept {
            file.copy_from_slice(&bytes[..8]);
        }
        let count = if self == Wrong::CountKept {
            book.classes[class].len()
        } else {
            1
        };
        file[2 * class..2 * class + 2].copy_from_slice(&(count as u16).to_le_bytes());
        file.extend(row.encode());
        file
    }

    /// The file for a book of a wrong length.
    fn of_length(self, bytes: &[u8]) -> Vec<u8> {
        let mut file = bytes[..8].to_vec();
        let none = file == [0; 8];
        match self {
            Wrong::OneAlways => file = vec![1, 0, 0, 0, 0, 0, 0, 0],
            Wrong::LastCount if none => file[6] = 1,
            Wrong::ZerosKept => (),
            _ if none => file[0] = 1,
            _ => (),
        }
        file
    }

    /// The file for a book with too many rows.
    fn of_counts(self, bytes: &[u8]) -> Vec<u8> {
        let mut file = bytes[..8].to_vec();
        match self {
            Wrong::RowsKept => return bytes.to_vec(),
            Wrong::CountsCut => {
                for count in file.chunks_mut(2) {
                    let cut = u16::from_le_bytes([count[0], count[1]]).min(4_000);
                    count.copy_from_slice(&cut.to_le_bytes());
                }
            }
            _ => (),
        }
        file
    }

    /// The file for a book, by its refusal.
    pub fn file(self, bytes: &[u8], refusal: &Refusal) -> Vec<u8> {
        match refusal.number {
            1 if self == Wrong::BytesOfOne => bytes.to_vec(),
            0 | 1 => vec![],
            2 => self.of_counts(bytes),
            3 => self.of_length(bytes),
            15 if self == Wrong::NotesSkipped => vec![],
            _ => self.of_row(bytes, refusal),
        }
    }

    /// How many bytes an output must have for a file of a book.
    pub fn wanted(self, bytes: &[u8], refusal: &Refusal, file: &[u8]) -> i64 {
        let length = match (self, refusal.number) {
            (Wrong::TwelveOfOne, 1) | (Wrong::TwelveOfAccepted, 0) => 8,
            (Wrong::TwelveOfBook, 2..) => bytes.len(),
            (Wrong::Truncated, _) => 0,
            _ => file.len(),
        };
        let late = match self {
            Wrong::Twelve(late) if refusal.number > 1 => late,
            _ => 0,
        };
        length as i64 - late
    }

    /// The mark of a book with this refusal, or 12 with this one of the call.
    pub fn mark(self, refusal: &Refusal, short: bool) -> u64 {
        let marked = match (self, refusal.number) {
            (Wrong::MarkOfTwelve, _) if short => true,
            _ if short => false,
            (Wrong::NoMark, 0) => false,
            (_, 0) | (Wrong::MarkOfOne, 1) => true,
            (Wrong::MarkOfOthers, number) => number > 1,
            _ => false,
        };
        u64::from(marked)
    }

    /// Writes the file, as far as there is room, and what the reading does besides.
    pub fn write(self, file: &[u8], out: &mut [u8]) {
        let (front, rest) = out.split_at_mut(file.len().min(out.len()));
        front.copy_from_slice(&file[..front.len()]);
        match self {
            Wrong::Cleared => rest.fill(0),
            Wrong::PastTheEnd => rest.iter_mut().take(1).for_each(|byte| *byte ^= 1),
            _ => (),
        }
    }
}
