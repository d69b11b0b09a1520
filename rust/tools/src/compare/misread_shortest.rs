//! The shortest file that shows a refusal with a wrong reading, put in on purpose; all other calls are
//! the second calculation's.

use super::shortest_readings::Wrong;
use super::trade::answer;
use crate::calls::{Calls, Second};

/// A calculation with a wrong reading.
pub struct Misread {
    pub name: &'static str,
    pub wrong: Wrong,
}

impl Calls for Misread {
    fn name(&self) -> &'static str {
        self.name
    }
    fn check(&self, book: &[u8], out: &mut [u64; 3]) {
        Second.check(book, out);
    }
    fn part(&self, book: &[u8], class: usize, out: &mut [u64; 5]) {
        Second.part(book, class, out);
    }
    fn charge(&self, book: &[u8], table: &[u8], out: &mut [u64; 75]) {
        Second.charge(book, table, out);
    }
    fn interest_ladder(&self, book: &[u8], table: &[u8], group: usize, out: &mut [u64; 13]) {
        Second.interest_ladder(book, table, group, out);
    }
    fn commodity_ladder(&self, book: &[u8], group: usize, out: &mut [u64; 7]) {
        Second.commodity_ladder(book, group, out);
    }
    fn small_bank(&self, book: &[u8], out: &mut [u64; 6]) {
        Second.small_bank(book, out);
    }
    fn join(&self, a: &[u8], b: &[u8], out: &mut [u8], result: &mut [u64; 4]) {
        Second.join(a, b, out, result);
    }
    fn net(&self, book: &[u8], out: &mut [u8], result: &mut [u64; 5]) {
        Second.net(book, out, result);
    }
    fn offset(&self, book: &[u8], out: &mut [u8], result: &mut [u64; 4]) {
        Second.offset(book, out, result);
    }
    fn net_and_offset(&self, book: &[u8], out: &mut [u8], result: &mut [u64; 5]) {
        Second.net_and_offset(book, out, result);
    }
    fn shortest(&self, book: &[u8], out: &mut [u8], result: &mut [u64; 5]) {
        let (refusal, wrong) = (second::check(book), self.wrong);
        let file = wrong.file(book, &refusal);
        let short = (out.len() as i64) < wrong.wanted(book, &refusal, &file);
        let mark = wrong.mark(&refusal, short);
        *result = [0, 0, 0, file.len() as u64, mark];
        match (wrong, short) {
            (Wrong::OwnRefusal, _) if refusal.number > 0 => {
                *result = [refusal.number, refusal.row, 0, 0, 0];
            }
            (_, true) => {
                let length = if wrong == Wrong::LengthKept {
                    file.len()
                } else {
                    0
                };
                *result = [12, 0, 0, length as u64, mark];
                if wrong == Wrong::RefusedWrites {
                    out.iter_mut().take(1).for_each(|byte| *byte ^= 1);
                }
            }
            (_, false) => wrong.write(&file, out),
        }
        match wrong {
            Wrong::RowTold if !short => result[1] = refusal.row,
            Wrong::Truncated => result[3] = result[3].min(out.len() as u64),
            _ => (),
        }
    }
    fn dearest(&self, rows: usize, most: usize, out: &mut [u8], result: &mut [u64; 5]) {
        Second.dearest(rows, most, out, result);
    }
    fn options(&self, table: &[u8], out: &mut [u8], result: &mut [u64; 17]) {
        Second.options(table, out, result);
    }
    fn least_trade(
        &self,
        book: &[u8],
        table: &[u8],
        group: usize,
        band: usize,
        side: usize,
        limit: u64,
        out: &mut [u64; 5],
    ) {
        *out = answer(book, table, [group, band, side], limit);
    }
    fn table(&self, out: &mut [u8; 36]) {
        Second.table(out);
    }
}
