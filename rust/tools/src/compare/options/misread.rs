//! Options with a wrong reading, put in on purpose; all other calls are the second calculation's.

use super::super::trade::answer;
use super::readings::Wrong;
use crate::calls::{Calls, Second};
use books::options::OptionRow;

/// A calculation with a wrong reading.
pub struct Misread {
    pub name: &'static str,
    pub wrong: Wrong,
}

impl Wrong {
    /// The entries that are told of some options, after those of a refusal.
    fn figures(self, options: &[OptionRow], book: &[u8]) -> [u64; 14] {
        let (gammas, vegas) = (self.gammas(options), self.vegas(options));
        let charges = self.charges(book, gammas, vegas);
        let all = [&[book.len() as u64][..], &gammas, &vegas, &charges].concat();
        all.try_into().expect("14 figures")
    }

    /// Writes a book, as far as there is room, and what the reading does besides.
    fn write(self, book: &[u8], out: &mut [u8]) {
        let (front, rest) = out.split_at_mut(book.len().min(out.len()));
        front.copy_from_slice(&book[..front.len()]);
        match self {
            Wrong::Cleared => rest.fill(0),
            Wrong::PastTheEnd => rest.iter_mut().take(1).for_each(|byte| *byte ^= 1),
            _ => (),
        }
    }

    /// What is told of a refusal with 17, and done with it.
    fn refuse(self, before: &[OptionRow], out: &mut [u8]) -> [u64; 14] {
        let book = self.book(before);
        match self {
            Wrong::FiguresBefore => self.figures(before, &book),
            Wrong::RowsBefore => {
                self.write(&book, out);
                [0; 14]
            }
            _ => [0; 14],
        }
    }

    /// The same of 12.
    fn refuse_room(self, options: &[OptionRow], book: &[u8], out: &mut [u8]) -> [u64; 14] {
        let mut figures = [0; 14];
        match self {
            Wrong::FiguresKept => {
                figures = self.figures(options, book);
                figures[0] = 0;
            }
            Wrong::LengthKept => figures[0] = book.len() as u64,
            Wrong::RefusedWrites => out.iter_mut().take(1).for_each(|byte| *byte ^= 1),
            Wrong::Truncated => self.write(book, out),
            _ => (),
        }
        figures
    }

    /// Whether an output is too short for a book of so many options.
    fn short(self, room: usize, book: &[u8], options: usize) -> bool {
        let wanted = match self {
            Wrong::Twelve(longer) => book.len() as i64 + longer,
            Wrong::TwelveByOptions => 8 + 16 * options as i64,
            _ => book.len() as i64,
        };
        (room as i64) < wanted
    }

    /// The number and row of a call's refusal, and its figures.
    fn answer(self, table: &[u8], out: &mut [u8]) -> ([u64; 2], [u64; 14]) {
        let options = match self.read(table, out.len()) {
            Ok(options) => options,
            Err(refused) => {
                let told = [refused.number, refused.row];
                let figures = match refused.number {
                    17 => self.refuse(&refused.before, out),
                    _ => [0; 14],
                };
                return (told, figures);
            }
        };
        let book = self.book(&options);
        if self.short(out.len(), &book, options.len()) {
            return ([12, 0], self.refuse_room(&options, &book, out));
        }
        self.write(&book, out);
        ([0, 0], self.figures(&options, &book))
    }
}

impl Calls for Misread {
    fn name(&self) -> &'static str {
        self.name
    }
    fn check(&self, book: &[u8], out: &mut [u64; 3]) {
        Second.check(book, out);
    }
    fn part(&self, book: &[u8], class: usize, out: &mut [u64; 5]) {
        Second.part(book, class, out);
    }
    fn charge(&self, book: &[u8], table: &[u8], out: &mut [u64; 75]) {
        Second.charge(book, table, out);
        out[9] += self.wrong.dear(book);
    }
    fn interest_ladder(&self, book: &[u8], table: &[u8], group: usize, out: &mut [u64; 13]) {
        Second.interest_ladder(book, table, group, out);
    }
    fn commodity_ladder(&self, book: &[u8], group: usize, out: &mut [u64; 7]) {
        Second.commodity_ladder(book, group, out);
    }
    fn small_bank(&self, book: &[u8], out: &mut [u64; 6]) {
        Second.small_bank(book, out);
    }
    fn join(&self, a: &[u8], b: &[u8], out: &mut [u8], result: &mut [u64; 4]) {
        Second.join(a, b, out, result);
    }
    fn net(&self, book: &[u8], out: &mut [u8], result: &mut [u64; 5]) {
        Second.net(book, out, result);
    }
    fn offset(&self, book: &[u8], out: &mut [u8], result: &mut [u64; 4]) {
        Second.offset(book, out, result);
    }
    fn net_and_offset(&self, book: &[u8], out: &mut [u8], result: &mut [u64; 5]) {
        Second.net_and_offset(book, out, result);
    }
    fn shortest(&self, book: &[u8], out: &mut [u8], result: &mut [u64; 5]) {
        Second.shortest(book, out, result);
    }
    fn dearest(&self, rows: usize, most: usize, out: &mut [u8], result: &mut [u64; 5]) {
        Second.dearest(rows, most, out, result);
    }
    fn options(&self, table: &[u8], out: &mut [u8], result: &mut [u64; 17]) {
        let ([number, row], figures) = self.wrong.answer(table, out);
        result[..3].copy_from_slice(&[number, row, 0]);
        result[3..].copy_from_slice(&figures);
    }
    fn least_trade(
        &self,
        book: &[u8],
        table: &[u8],
        group: usize,
        band: usize,
        side: usize,
        limit: u64,
        out: &mut [u64; 5],
    ) {
        *out = answer(book, table, [group, band, side], limit);
    }
    fn table(&self, out: &mut [u8; 36]) {
        Second.table(out);
    }
}
