//! The second calculation with a wrong reading of loaded tables, put in on purpose.

use super::mended::{mended, refused_where_equal};
use super::trade::answer;
use crate::calls::{Calls, Second};

/// What is wrong with the reading of a table. All else is the second calculation's.
#[derive(Clone, Copy, Debug, PartialEq)]
pub enum Wrong {
    /// Document 01's weights, whatever is loaded.
    OldWeights,
    /// Document 01's per cents, whatever is loaded.
    OldPerCents,
    /// Document 01's weights in the ladder call alone.
    OldWeightsInLadder,
    /// Document 01's per cents in the ladder call alone.
    OldPerCentsInLadder,
    /// The book is looked at before the table is refused with this number.
    AfterBook(u64),
    /// A table is refused with this number before the group is looked at.
    BeforeGroup(u64),
    /// A longer table is taken by its first 36 bytes.
    FirstBytes,
    /// A table that is one byte short ends with 100.
    LastByteSupposed,
    /// One condition is not tested, by its way.
    Untested(usize),
    /// One condition is not met where both sides of it are equal, by its way.
    Strict(usize),
    /// The bytes of two zones are exchanged.
    ZonesExchanged([usize; 2]),
    /// The high byte of a weight comes first.
    HighByteFirst,
    /// The high byte of a weight is left out.
    LowByteAlone,
    /// A match between zones 2 and 3 bears what one between 1 and 3 does.
    FarForSecondPair,
    /// The residual bears what a match between zones 1 and 3 does.
    ResidualAsFar,
    /// A refusal with 18 is told as 19.
    NineteenForEighteen,
    /// A refusal with 19 is told as 18.
    EighteenForNineteen,
    /// A refused table leaves a figure.
    FigureKept,
    /// A refused table names a row.
    RowNamed,
    /// Books of many rows are charged by a dearer table than the loaded one, but for document
    /// 01's.
    DearerWhenLong,
}

/// The number that a table is refused with, or 0.
fn refusal(table: &[u8]) -> u64 {
    second::read_table(table).map_or_else(|refusal| refusal.number, |_| 0)
}

/// Document 01's table with some of its bytes as they are loaded.
fn partly_old(table: &[u8], loaded: std::ops::Range<usize>) -> Vec<u8> {
    let mut mixed = second::table();
    mixed[loaded.clone()].copy_from_slice(&table[loaded]);
    mixed.to_vec()
}

/// The weights of a table with their bytes changed.
fn weights_as(table: &[u8], change: fn(&mut [u8])) -> Vec<u8> {
    let mut table = table.to_vec();
    if table.len() == 36 {
        table[..30].chunks_mut(2).for_each(change);
    }
    table
}

impl Wrong {
    /// An accepted table as a wrong reading has it.
    fn misread_accepted(self, book: &[u8], table: &[u8], ladder: bool) -> Vec<u8> {
        match self {
            Wrong::OldWeights => partly_old(table, 30..36),
            Wrong::OldPerCents => partly_old(table, 0..30),
            Wrong::OldWeightsInLadder if ladder => partly_old(table, 30..36),
            Wrong::OldPerCentsInLadder if ladder => partly_old(table, 0..30),
            Wrong::Strict(way) => refused_where_equal(way, table),
            Wrong::ZonesExchanged([one, other]) => {
                let mut table = table.to_vec();
                table.swap(31 + one, 31 + other);
                table
            }
            Wrong::DearerWhenLong if book.len() > 72 && table != second::table() => {
                let weights = 2_000u16.to_le_bytes().repeat(15);
                [weights, vec![100; 6]].concat()
            }
            _ => table.to_vec(),
        }
    }

    /// A refused table as a wrong reading has it.
    fn misread_refused(self, book: &[u8], table: &[u8]) -> Vec<u8> {
        let accepted = second::check(book).accepted();
        match self {
            Wrong::AfterBook(number) if number == refusal(table) && !accepted => {
                second::table().to_vec()
            }
            Wrong::FirstBytes if table.len() > 36 => table[..36].to_vec(),
            Wrong::LastByteSupposed if table.len() == 35 => [table, &[100]].concat(),
            Wrong::Untested(way) => mended(way, table),
            _ => table.to_vec(),
        }
    }

    /// A table as a wrong reading has it, for the ladder call or for the charge.
    fn misread(self, book: &[u8], table: &[u8], ladder: bool) -> Vec<u8> {
        match (self, second::read_table(table)) {
            (Wrong::HighByteFirst, _) => weights_as(table, |weight| weight.swap(0, 1)),
            (Wrong::LowByteAlone, _) => weights_as(table, |weight| weight[1] = 0),
            (_, Ok(_)) => self.misread_accepted(book, table, ladder),
            (_, Err(_)) => self.misread_refused(book, table),
        }
    }

    /// Whether figures are right but for the charges.
    fn recharges(self) -> bool {
        [Wrong::FarForSecondPair, Wrong::ResidualAsFar].contains(&self)
    }

    /// What a ladder's charge is more than it should be, which may wrap.
    fn too_much(self, table: &[u8], ladder: &[u64; 13]) -> u64 {
        let per_cent = |at: usize| u64::from(table.get(at).copied().unwrap_or(0));
        let (far, near) = (per_cent(35), per_cent(34));
        match self {
            Wrong::FarForSecondPair => (far - near) * ladder[9],
            Wrong::ResidualAsFar => far.wrapping_sub(100).wrapping_mul(ladder[11]),
            _ => 0,
        }
    }

    /// A refusal of a table as a wrong reading tells it.
    fn mistell(self, out: &mut [u64]) {
        match (self, out[0]) {
            (Wrong::NineteenForEighteen, 18) => out[0] = 19,
            (Wrong::EighteenForNineteen, 19) => out[0] = 18,
            (Wrong::FigureKept, 18 | 19) => out[4] = 1,
            (Wrong::RowNamed, 18 | 19) => out[1] = 1,
            _ => (),
        }
    }
}

/// A calculation with a wrong reading.
pub struct Misread {
    pub name: &'static str,
    pub wrong: Wrong,
}

impl Calls for Misread {
    fn name(&self) -> &'static str {
        self.name
    }
    fn check(&self, book: &[u8], out: &mut [u64; 3]) {
        Second.check(book, out);
    }
    fn part(&self, book: &[u8], class: usize, out: &mut [u64; 5]) {
        Second.part(book, class, out);
    }
    fn charge(&self, book: &[u8], table: &[u8], out: &mut [u64; 75]) {
        Second.charge(book, &self.wrong.misread(book, table, false), out);
        if out[0] == 0 && self.wrong.recharges() {
            for group in 0..32 {
                let mut ladder = [0; 13];
                Second.interest_ladder(book, table, group, &mut ladder);
                let more = self.wrong.too_much(table, &ladder);
                for entry in [4, 9, 43 + group] {
                    out[entry] = out[entry].wrapping_add(more);
                }
            }
        }
        self.wrong.mistell(out);
    }
    fn interest_ladder(&self, book: &[u8], table: &[u8], group: usize, out: &mut [u64; 13]) {
        let group = match self.wrong {
            Wrong::BeforeGroup(number) if number == refusal(table) => 0,
            _ => group,
        };
        Second.interest_ladder(book, &self.wrong.misread(book, table, true), group, out);
        out[12] = out[12].wrapping_add(self.wrong.too_much(table, out));
        self.wrong.mistell(out);
    }
    fn commodity_ladder(&self, book: &[u8], group: usize, out: &mut [u64; 7]) {
        Second.commodity_ladder(book, group, out);
    }
    fn small_bank(&self, book: &[u8], out: &mut [u64; 6]) {
        Second.small_bank(book, out);
    }
    fn join(&self, a: &[u8], b: &[u8], out: &mut [u8], result: &mut [u64; 4]) {
        Second.join(a, b, out, result);
    }
    fn net(&self, book: &[u8], out: &mut [u8], result: &mut [u64; 5]) {
        Second.net(book, out, result);
    }
    fn offset(&self, book: &[u8], out: &mut [u8], result: &mut [u64; 4]) {
        Second.offset(book, out, result);
    }
    fn net_and_offset(&self, book: &[u8], out: &mut [u8], result: &mut [u64; 5]) {
        Second.net_and_offset(book, out, result);
    }
    fn shortest(&self, book: &[u8], out: &mut [u8], result: &mut [u64; 5]) {
        Second.shortest(book, out, result);
    }
    fn dearest(&self, rows: usize, most: usize, out: &mut [u8], result: &mut [u64; 5]) {
        Second.dearest(rows, most, out, result);
    }
    fn options(&self, table: &[u8], out: &mut [u8], result: &mut [u64; 17]) {
        Second.options(table, out, result);
    }
    fn least_trade(
        &self,
        book: &[u8],
        table: &[u8],
        group: usize,
        band: usize,
        side: usize,
        limit: u64,
        out: &mut [u64; 5],
    ) {
        *out = answer(book, table, [group, band, side], limit);
    }
    fn table(&self, out: &mut [u8; 36]) {
        Second.table(out);
    }
}
