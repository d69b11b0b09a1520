//! The fifteen calls with the results of the C interface, by whichever calculation.

use market_risk::raw;

/// A calculation that answers all fifteen calls, writing every entry of each result.
pub trait Calls {
    /// What the calculation is called in a message. No two have the same name.
    fn name(&self) -> &'static str;
    /// Number, row, book.
    fn check(&self, book: &[u8], out: &mut [u64; 3]);
    /// Number, row, book; start; length.
    fn part(&self, book: &[u8], class: usize, out: &mut [u64; 5]);
    /// Number, row, book; six charges; total; rows taken; 32 specific interest charges by
    /// currency; 32 general ones.
    fn charge(&self, book: &[u8], table: &[u8], out: &mut [u64; 75]);
    /// Number, row, book; gross, seven match sums, residual, charge.
    fn interest_ladder(&self, book: &[u8], table: &[u8], group: usize, out: &mut [u64; 13]);
    /// Number, row, book; matches, carried, residual, charge.
    fn commodity_ladder(&self, book: &[u8], group: usize, out: &mut [u64; 7]);
    /// Number, row, book; foreign exchange, commodities, total.
    fn small_bank(&self, book: &[u8], out: &mut [u64; 6]);
    /// Number, row, book; length.
    fn join(&self, a: &[u8], b: &[u8], out: &mut [u8], result: &mut [u64; 4]);
    /// Number, row, book; length; comparisons.
    fn net(&self, book: &[u8], out: &mut [u8], result: &mut [u64; 5]);
    /// Number, row, book; length.
    fn offset(&self, book: &[u8], out: &mut [u8], result: &mut [u64; 4]);
    /// Number, row, book; length; comparisons.
    fn net_and_offset(&self, book: &[u8], out: &mut [u8], result: &mut [u64; 5]);
    /// Number, row, book; length; 1 where the book is accepted.
    fn shortest(&self, book: &[u8], out: &mut [u8], result: &mut [u64; 5]);
    /// Number, row, book; length; total.
    fn dearest(&self, rows: usize, most: usize, out: &mut [u8], result: &mut [u64; 5]);
    /// Number, row, book; length; gamma of equity, foreign exchange and commodities; vega of the same; six
    /// charges of the written book; its total.
    fn options(&self, table: &[u8], out: &mut [u8], result: &mut [u64; 17]);
    /// Number, row, book; 1 where there is an amount and 0 where none; the amount.
    // Its arguments are those of the C call.
    #[allow(clippy::too_many_arguments)]
    fn least_trade(
        &self,
        book: &[u8],
        table: &[u8],
        group: usize,
        band: usize,
        side: usize,
        limit: u64,
        out: &mut [u64; 5],
    );
    /// Document 01's table.
    fn table(&self, out: &mut [u8; 36]);
}

/// The proved library.
pub struct Proved;

impl Calls for Proved {
    fn name(&self) -> &'static str {
        "the proved library"
    }
    fn check(&self, book: &[u8], out: &mut [u64; 3]) {
        raw::check(book, out);
    }
    fn part(&self, book: &[u8], class: usize, out: &mut [u64; 5]) {
        raw::part(book, class, out);
    }
    fn charge(&self, book: &[u8], table: &[u8], out: &mut [u64; 75]) {
        raw::charge(book, table, out);
    }
    fn interest_ladder(&self, book: &[u8], table: &[u8], group: usize, out: &mut [u64; 13]) {
        raw::interest_ladder(book, table, group, out);
    }
    fn commodity_ladder(&self, book: &[u8], group: usize, out: &mut [u64; 7]) {
        raw::commodity_ladder(book, group, out);
    }
    fn small_bank(&self, book: &[u8], out: &mut [u64; 6]) {
        raw::small_bank(book, out);
    }
    fn join(&self, a: &[u8], b: &[u8], out: &mut [u8], result: &mut [u64; 4]) {
        raw::join(a, b, out, result);
    }
    fn net(&self, book: &[u8], out: &mut [u8], result: &mut [u64; 5]) {
        raw::net(book, out, result);
    }
    fn offset(&self, book: &[u8], out: &mut [u8], result: &mut [u64; 4]) {
        raw::offset(book, out, result);
    }
    fn net_and_offset(&self, book: &[u8], out: &mut [u8], result: &mut [u64; 5]) {
        raw::net_and_offset(book, out, result);
    }
    fn shortest(&self, book: &[u8], out: &mut [u8], result: &mut [u64; 5]) {
        raw::shortest(book, out, result);
    }
    fn dearest(&self, rows: usize, most: usize, out: &mut [u8], result: &mut [u64; 5]) {
        raw::dearest(rows, most, out, result);
    }
    fn options(&self, table: &[u8], out: &mut [u8], result: &mut [u64; 17]) {
        raw::options(table, out, result);
    }
    fn least_trade(
        &self,
        book: &[u8],
        table: &[u8],
        group: usize,
        band: usize,
        side: usize,
        limit: u64,
        out: &mut [u64; 5],
    ) {
        raw::least_trade(book, table, group, band, side, limit, out);
    }
    fn table(&self, out: &mut [u8; 36]) {
        raw::table(out);
    }
}

/// The second calculation.
pub struct Second;

impl Calls for Second {
    fn name(&self) -> &'static str {
        "the second calculation"
    }

    fn check(&self, book: &[u8], out: &mut [u64; 3]) {
        *out = second::check(book).entries();
    }

    fn part(&self, book: &[u8], class: usize, out: &mut [u64; 5]) {
        *out = second::part(book, class).entries();
    }

    fn charge(&self, book: &[u8], table: &[u8], out: &mut [u64; 75]) {
        *out = second::charge(book, table).entries();
    }

    fn interest_ladder(&self, book: &[u8], table: &[u8], group: usize, out: &mut [u64; 13]) {
        *out = second::interest_ladder(book, table, group).entries();
    }

    fn commodity_ladder(&self, book: &[u8], group: usize, out: &mut [u64; 7]) {
        *out = second::commodity_ladder(book, group).entries();
    }

    fn small_bank(&self, book: &[u8], out: &mut [u64; 6]) {
        *out = second::small_bank(book).entries();
    }

    fn join(&self, a: &[u8], b: &[u8], out: &mut [u8], result: &mut [u64; 4]) {
        *result = second::join(a, b, out).entries();
    }

    fn net(&self, book: &[u8], out: &mut [u8], result: &mut [u64; 5]) {
        *result = second::net(book, out).entries();
    }

    fn offset(&self, book: &[u8], out: &mut [u8], result: &mut [u64; 4]) {
        *result = second::offset(book, out).entries();
    }

    fn net_and_offset(&self, book: &[u8], out: &mut [u8], result: &mut [u64; 5]) {
        *result = second::net_and_offset(book, out).entries();
    }

    fn shortest(&self, book: &[u8], out: &mut [u8], result: &mut [u64; 5]) {
        *result = second::shortest(book, out).entries();
    }

    fn dearest(&self, rows: usize, most: usize, out: &mut [u8], result: &mut [u64; 5]) {
        *result = second::dearest(rows as u64, most as u64, out).entries();
    }

    fn options(&self, table: &[u8], out: &mut [u8], result: &mut [u64; 17]) {
        *result = second::options(table, out).entries();
    }

    fn least_trade(
        &self,
        book: &[u8],
        table: &[u8],
        group: usize,
        band: usize,
        side: usize,
        limit: u64,
        out: &mut [u64; 5],
    ) {
        *out = second::least_trade(book, table, group, band, side, limit).entries();
    }

    fn table(&self, out: &mut [u8; 36]) {
        *out = second::table();
    }
}
