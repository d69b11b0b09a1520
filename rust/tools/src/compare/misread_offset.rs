//! Offsetting with a wrong reading, put in on purpose; all other calls are the second calculation's.

use super::offset_readings::Wrong;
use super::trade::answer;
use crate::calls::{Calls, Second};

/// A calculation with a wrong reading.
pub struct Misread {
    pub name: &'static str,
    pub wrong: Wrong,
}

impl Misread {
    /// The refusal of a book, with so much room for so many bytes: number and row.
    fn refusal(&self, book: &[u8], room: usize, written: usize) -> [u64; 2] {
        let check = match (self.wrong, second::check(book)) {
            (Wrong::BeforeRows, check) if check.number > 3 => {
                second::check(&self.wrong.written(book))
            }
            (_, check) => check,
        };
        let wanted = match self.wrong {
            Wrong::Twelve(late) => written as i64 - late,
            Wrong::TwelveOfBook => book.len() as i64,
            _ => written as i64,
        };
        let short = (room as i64) < wanted;
        match check.number {
            4..=15 if self.wrong == Wrong::TwelveFirst && short => [12, 0],
            0 if short => [12, 0],
            number => [number, check.row],
        }
    }

    /// Writes what is left, as far as it fits, and what the reading does to the bytes past it.
    fn write(&self, written: &[u8], out: &mut [u8]) {
        let fits = written.len().min(out.len());
        let (front, rest) = out.split_at_mut(fits);
        front.copy_from_slice(&written[..fits]);
        match self.wrong {
            Wrong::Cleared => rest.fill(0),
            Wrong::PastTheEnd => rest.iter_mut().take(1).for_each(|byte| *byte ^= 1),
            _ => (),
        }
    }
}

impl Calls for Misread {
    fn name(&self) -> &'static str {
        self.name
    }
    fn check(&self, book: &[u8], out: &mut [u64; 3]) {
        Second.check(book, out);
    }
    fn part(&self, book: &[u8], class: usize, out: &mut [u64; 5]) {
        Second.part(book, class, out);
    }
    fn charge(&self, book: &[u8], table: &[u8], out: &mut [u64; 75]) {
        Second.charge(book, table, out);
    }
    fn interest_ladder(&self, book: &[u8], table: &[u8], group: usize, out: &mut [u64; 13]) {
        Second.interest_ladder(book, table, group, out);
    }
    fn commodity_ladder(&self, book: &[u8], group: usize, out: &mut [u64; 7]) {
        Second.commodity_ladder(book, group, out);
    }
    fn small_bank(&self, book: &[u8], out: &mut [u64; 6]) {
        Second.small_bank(book, out);
    }
    fn join(&self, a: &[u8], b: &[u8], out: &mut [u8], result: &mut [u64; 4]) {
        Second.join(a, b, out, result);
    }
    fn net(&self, book: &[u8], out: &mut [u8], result: &mut [u64; 5]) {
        Second.net(book, out, result);
    }
    fn offset(&self, book: &[u8], out: &mut [u8], result: &mut [u64; 4]) {
        let written = self.wrong.written(book);
        let [number, row] = self.refusal(book, out.len(), written.len());
        *result = [number, row, 0, 0];
        match (number, self.wrong) {
            (0, _) => {
                self.write(&written, out);
                result[3] = written.len() as u64;
            }
            (12, Wrong::LengthKept) => result[3] = written.len() as u64,
            (_, Wrong::RefusedWrites) => out.iter_mut().take(1).for_each(|byte| *byte ^= 1),
            _ => (),
        }
    }
    fn net_and_offset(&self, book: &[u8], out: &mut [u8], result: &mut [u64; 5]) {
        Second.net_and_offset(book, out, result);
    }
    fn shortest(&self, book: &[u8], out: &mut [u8], result: &mut [u64; 5]) {
        Second.shortest(book, out, result);
    }
    fn dearest(&self, rows: usize, most: usize, out: &mut [u8], result: &mut [u64; 5]) {
        Second.dearest(rows, most, out, result);
    }
    fn options(&self, table: &[u8], out: &mut [u8], result: &mut [u64; 17]) {
        Second.options(table, out, result);
    }
    fn least_trade(
        &self,
        book: &[u8],
        table: &[u8],
        group: usize,
        band: usize,
        side: usize,
        limit: u64,
        out: &mut [u64; 5],
    ) {
        *out = answer(book, table, [group, band, side], limit);
    }
    fn table(&self, out: &mut [u8; 36]) {
        Second.table(out);
    }
}
