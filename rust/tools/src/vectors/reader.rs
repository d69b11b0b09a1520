//! A reader of the stream, as docs/VECTORS.md describes it.

use super::build::{call, Call, Case, Trade};

/// What is left of a stream.
struct Reader<'a> {
    rest: &'a [u8],
}

impl Reader<'_> {
    fn take(&mut self, count: usize) -> Vec<u8> {
        let (taken, rest) = self.rest.split_at(count);
        self.rest = rest;
        taken.to_vec()
    }

    fn number(&mut self, bytes: usize) -> usize {
        let bytes = self.take(bytes);
        bytes
            .iter()
            .rev()
            .fold(0, |high, byte| high * 256 + usize::from(*byte))
    }

    fn table(&mut self) -> Vec<u8> {
        let length = self.number(2);
        assert!(length <= 256);
        self.take(length)
    }

    fn book(&mut self, length: usize, runs: bool) -> Vec<u8> {
        if !runs {
            return self.take(length);
        }
        let mut book = self.take(8);
        while book.len() < length {
            let count = self.number(2);
            let row = self.take(16);
            book.extend(row.repeat(count));
        }
        assert_eq!(book.len(), length);
        book
    }

    fn case(&mut self) -> Option<Case> {
        let tag = self.number(1);
        let (runs, tag) = (tag & 0x80 != 0, tag & 0x7f);
        if tag == 0 {
            return None;
        }
        if tag == 8 {
            return Some(call(Call::Table, &[]));
        }
        if tag == 5 {
            let (room, a, b) = (self.number(4), self.number(4), self.number(4));
            let (book, other) = (self.book(a, runs), self.book(b, runs));
            let room = room as u32;
            return Some(call(Call::Join { other, room }, &book));
        }
        if (10..=13).contains(&tag) {
            let (room, length) = (self.number(4) as u32, self.number(4));
            let book = self.book(length, runs);
            return Some(match tag {
                10 => call(Call::Net { room }, &book),
                11 => call(Call::Offset { room }, &book),
                12 => call(Call::NetAndOffset { room }, &book),
                _ => call(Call::Shortest { room }, &book),
            });
        }
        if tag == 14 {
            let [room, rows, most] = [0; 3].map(|_| self.number(4) as u32);
            return Some(call(Call::Dearest { room, rows, most }, &[]));
        }
        if tag == 15 {
            let (room, length) = (self.number(4) as u32, self.number(4));
            let table = self.book(length, runs);
            assert!(!runs, "an option table has no rows of a book");
            return Some(call(Call::Options { room }, &table));
        }
        if tag == 16 {
            let trade = Trade {
                table: self.table(),
                group: self.number(2) as u16,
                band: self.number(2) as u16,
                side: self.number(2) as u16,
                limit: self.number(8) as u64,
            };
            let length = self.number(4);
            return Some(call(Call::LeastTrade(trade), &self.book(length, runs)));
        }
        let table = match tag {
            6 | 7 => self.table(),
            _ => vec![],
        };
        let (group, length) = (self.number(2) as u16, self.number(4));
        let which = match tag {
            1 => Call::Check,
            2 => Call::Charge,
            3 => Call::InterestLadder(group),
            4 => Call::CommodityLadder(group),
            6 => Call::ChargeBy { table },
            7 => Call::InterestLadderBy { table, group },
            9 => Call::SmallBank,
            _ => panic!("no tag {tag}"),
        };
        Some(call(which, &self.book(length, runs)))
    }
}

/// The calls of a stream, of which nothing may be left.
pub fn read(stream: &[u8]) -> Vec<Case> {
    let mut reader = Reader { rest: stream };
    let cases = std::iter::from_fn(|| reader.case()).collect();
    assert!(reader.rest.is_empty());
    cases
}
