//! The dearest book with a wrong reading, put in on purpose; all other calls are the second
//! calculation's.

use super::dearest_readings::Wrong;
use super::trade::answer;
use crate::calls::{Calls, Second};

/// A calculation with a wrong reading.
pub struct Misread {
    pub name: &'static str,
    pub wrong: Wrong,
}

impl Misread {
    /// What is told of a refusal, where so much would be told without it.
    fn refuse(&self, number: u64, rows: usize, most: usize) -> [u64; 5] {
        let told = |wrong: Wrong, figure: usize| match self.wrong == wrong {
            true => figure as u64,
            false => 0,
        };
        let length = told(Wrong::LengthKept, 8 + 16 * rows.min(4_001));
        let units = rows.min(4_001) * most.min(1_000_000_001);
        [
            number,
            0,
            0,
            length,
            205_000 * told(Wrong::TotalKept, units),
        ]
    }
}

impl Calls for Misread {
    fn name(&self) -> &'static str {
        self.name
    }
    fn check(&self, book: &[u8], out: &mut [u64; 3]) {
        Second.check(book, out);
    }
    fn part(&self, book: &[u8], class: usize, out: &mut [u64; 5]) {
        Second.part(book, class, out);
    }
    fn charge(&self, book: &[u8], table: &[u8], out: &mut [u64; 75]) {
        Second.charge(book, table, out);
    }
    fn interest_ladder(&self, book: &[u8], table: &[u8], group: usize, out: &mut [u64; 13]) {
        Second.interest_ladder(book, table, group, out);
    }
    fn commodity_ladder(&self, book: &[u8], group: usize, out: &mut [u64; 7]) {
        Second.commodity_ladder(book, group, out);
    }
    fn small_bank(&self, book: &[u8], out: &mut [u64; 6]) {
        Second.small_bank(book, out);
    }
    fn join(&self, a: &[u8], b: &[u8], out: &mut [u8], result: &mut [u64; 4]) {
        Second.join(a, b, out, result);
    }
    fn net(&self, book: &[u8], out: &mut [u8], result: &mut [u64; 5]) {
        Second.net(book, out, result);
    }
    fn offset(&self, book: &[u8], out: &mut [u8], result: &mut [u64; 4]) {
        Second.offset(book, out, result);
    }
    fn net_and_offset(&self, book: &[u8], out: &mut [u8], result: &mut [u64; 5]) {
        Second.net_and_offset(book, out, result);
    }
    fn shortest(&self, book: &[u8], out: &mut [u8], result: &mut [u64; 5]) {
        Second.shortest(book, out, result);
    }
    fn dearest(&self, rows: usize, most: usize, out: &mut [u8], result: &mut [u64; 5]) {
        let wrong = self.wrong;
        let (rows, most) = wrong.read(rows, most);
        let bytes = 8 + 16 * rows.min(65_536) as i64;
        let short = match wrong {
            Wrong::OneRowFewer => (out.len() as i64) < (bytes - 16).max(8),
            Wrong::Twelve(longer) => (out.len() as i64) < bytes + longer,
            _ => (out.len() as i64) < bytes,
        };
        if short && wrong == Wrong::TwelveFirst {
            *result = [12, 0, 0, 0, 0];
        } else if wrong.refused(rows, most, out.len()) {
            *result = self.refuse(22, rows, most);
        } else if short {
            *result = self.refuse(12, rows, most);
            match wrong {
                Wrong::RefusedWrites => out.iter_mut().take(1).for_each(|byte| *byte ^= 1),
                Wrong::Truncated => wrong.write(&wrong.book(rows, most as u32), out),
                _ => (),
            }
        } else {
            let book = wrong.book(rows, most as u32);
            *result = [0, 0, 0, book.len() as u64, wrong.total(rows, most, &book)];
            wrong.write(&book, out);
        }
        if wrong == Wrong::RowTold {
            result[1] = rows as u64;
        }
    }
    fn options(&self, table: &[u8], out: &mut [u8], result: &mut [u64; 17]) {
        Second.options(table, out, result);
    }
    fn least_trade(
        &self,
        book: &[u8],
        table: &[u8],
        group: usize,
        band: usize,
        side: usize,
        limit: u64,
        out: &mut [u64; 5],
    ) {
        *out = answer(book, table, [group, band, side], limit);
    }
    fn table(&self, out: &mut [u8; 36]) {
        Second.table(out);
    }
}
