//! A reading of netting and then offsetting, right or wrong on purpose.

use crate::offset::fit;
use books::{Book, Row};

/// What is wrong with doing both.
#[derive(Clone, Copy, Debug, PartialEq)]
pub enum Wrong {
    /// Nothing: the reading is right.
    Nothing,
    /// Offsetting comes first.
    OffsetFirst,
    /// Offsetting comes first, and once more after netting.
    OffsetTwice,
    /// Nothing is netted.
    NotNetted,
    /// Nothing is offset.
    NotOffset,
    /// Legs fit only with equal issue numbers.
    OneIssue,
    /// Legs fit only with an issue number each.
    Numbered,
    /// Legs fit only without issue numbers.
    Unnumbered,
    /// 12 is told where the output is shorter than the netted book.
    TwelveOfNetted,
    /// 12 is told where the output is shorter than the book itself.
    TwelveOfBook,
    /// 12 is told so many bytes late.
    Twelve(i64),
    /// 12 is tried before 13 and 14.
    TwelveFirst,
    /// An issue that cannot be netted stays as it is: 13, or 14, is not told.
    Skipped(u64),
    /// The netted book is written to the output on the way, and stands past the result.
    NettedLeft,
    /// The same, and it stands in an output that is too short for the netted book as far as it goes.
    NettedOnTheWay,
    /// Bytes past the written book are cleared.
    Cleared,
    /// A byte past the written book is written.
    PastTheEnd,
    /// A refused call writes its first byte.
    RefusedWrites,
    /// A refusal with 12 gives the length that is wanted.
    LengthKept,
    /// A refusal with 12 gives the comparisons.
    CountKept,
    /// The comparisons are those of the offset book.
    CountOfOffset,
    /// The comparisons are those of the written book.
    CountOfWritten,
    /// No comparisons are given.
    CountOfNone,
    /// Books of more than so many rows are netted alone.
    LongKept(usize),
}

/// A book, or the refusal.
type Left = Result<Vec<u8>, second::Refusal>;

/// A netted book offset with a condition on the two issue numbers besides.
fn offset_by(netted: &[u8], condition: fn(u16, u16) -> bool) -> Vec<u8> {
    let mut book = Book::decode(netted).expect("a netted book");
    let mut left: Vec<Row> = std::mem::take(&mut book.classes[0]);
    let mut at = 0;
    while at < left.len() {
        let row = left[at];
        let fits = |later: &usize| {
            let other = left[*later];
            fit(&row, &other) && condition(row.issue, other.issue)
        };
        match (at + 1..left.len()).find(fits) {
            Some(later) => {
                left.remove(later);
                left.remove(at);
            }
            None => at += 1,
        }
    }
    book.classes[0] = left;
    book.encode().expect("no more rows than before")
}

impl Wrong {
    /// The netted book, with an issue that cannot be netted as it is where that is not told.
    fn netted(self, book: &[u8]) -> Left {
        match (self, second::netted(book)) {
            (Wrong::NotNetted, _) => second::offset_book(book).map(|_| book.to_vec()),
            (Wrong::Skipped(number), Err(refusal)) if refusal.number == number => Ok(book.to_vec()),
            (_, netted) => netted,
        }
    }

    /// What is left of a book.
    fn left(self, book: &[u8]) -> Left {
        let netted = self.netted(book);
        match self {
            Wrong::OffsetFirst => second::offset_book(book).and_then(|left| second::netted(&left)),
            Wrong::OffsetTwice => Wrong::OffsetFirst
                .left(book)
                .and_then(|left| second::offset_book(&left)),
            Wrong::NotOffset => netted,
            Wrong::OneIssue => netted.map(|book| offset_by(&book, |one, two| one == two)),
            Wrong::Numbered => netted.map(|book| offset_by(&book, |one, two| one > 0 && two > 0)),
            Wrong::Unnumbered => netted.map(|book| offset_by(&book, |one, two| one + two == 0)),
            Wrong::LongKept(rows) if book.len() > 8 + 16 * rows => netted,
            _ => netted.and_then(|netted| second::offset_book(&netted)),
        }
    }

    /// How many bytes an output must have.
    fn wanted(self, book: &[u8], left: &[u8]) -> i64 {
        let length = match self {
            Wrong::TwelveOfNetted => second::netted(book).map_or(0, |netted| netted.len()),
            Wrong::TwelveOfBook => book.len(),
            _ => left.len(),
        };
        let late = if let Wrong::Twelve(late) = self {
            late
        } else {
            0
        };
        length as i64 - late
    }

    /// What is left of a book for an output of so many bytes.
    pub fn into(self, book: &[u8], room: usize) -> Left {
        let short = |left: &[u8]| (room as i64) < self.wanted(book, left);
        match self.left(book) {
            Ok(left) if short(&left) => Err(second::Refusal::of(12)),
            Err(told) if self == Wrong::TwelveFirst && told.number > 12 && room < book.len() => {
                Err(second::Refusal::of(if told.number < 15 { 12 } else { 15 }))
            }
            left => left,
        }
    }

    /// The comparisons of a book of which this is left.
    pub fn comparisons(self, book: &[u8], left: &[u8]) -> u64 {
        match self {
            Wrong::CountOfOffset => {
                second::comparisons(&second::offset_book(book).unwrap_or_default())
            }
            Wrong::CountOfWritten => second::comparisons(left),
            Wrong::CountOfNone => 0,
            _ => second::comparisons(book),
        }
    }

    /// Writes what is left, as far as there is room, and what the reading does besides.
    pub fn write(self, book: &[u8], left: &[u8], out: &mut [u8]) {
        let netted = second::netted(book).unwrap_or_default();
        let on_the_way = match self {
            Wrong::NettedLeft if netted.len() <= out.len() => netted.len(),
            Wrong::NettedOnTheWay => netted.len().min(out.len()),
            _ => 0,
        };
        out[..on_the_way].copy_from_slice(&netted[..on_the_way]);
        let (front, rest) = out.split_at_mut(left.len().min(out.len()));
        front.copy_from_slice(&left[..front.len()]);
        match self {
            Wrong::Cleared => rest.fill(0),
            Wrong::PastTheEnd => rest.iter_mut().take(1).for_each(|byte| *byte ^= 1),
            _ => (),
        }
    }
}
