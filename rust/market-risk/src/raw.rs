//! The calls of the C interface, each result an array that the library fills.
//!
//! The first three entries are the refusal's number, row and book, all 0 when the call
//! is accepted; every other entry is 0 when it is not. The library writes every entry.
//! The result of `table` is bytes and no call of it is refused.

/// The names and types of `include/market_risk.h`.
mod c {
    extern "C" {
        pub fn market_risk_check(book: *const u8, len: usize, out: *mut u64);
        pub fn market_risk_part(book: *const u8, len: usize, class: usize, out: *mut u64);
        pub fn market_risk_table(out: *mut u8);
        pub fn market_risk_charge(
            book: *const u8,
            len: usize,
            table: *const u8,
            table_len: usize,
            out: *mut u64,
        );
        pub fn market_risk_interest_ladder(
            book: *const u8,
            len: usize,
            table: *const u8,
            table_len: usize,
            group: usize,
            out: *mut u64,
        );
        pub fn market_risk_commodity_ladder(
            book: *const u8,
            len: usize,
            group: usize,
            out: *mut u64,
        );
        pub fn market_risk_small_bank(book: *const u8, len: usize, out: *mut u64);
        pub fn market_risk_join(
            a: *const u8,
            a_len: usize,
            b: *const u8,
            b_len: usize,
            out: *mut u8,
            out_len: usize,
            result: *mut u64,
        );
        pub fn market_risk_net(
            book: *const u8,
            len: usize,
            out: *mut u8,
            out_len: usize,
            result: *mut u64,
        );
        pub fn market_risk_offset(
            book: *const u8,
            len: usize,
            out: *mut u8,
            out_len: usize,
            result: *mut u64,
        );
        pub fn market_risk_net_and_offset(
            book: *const u8,
            len: usize,
            out: *mut u8,
            out_len: usize,
            result: *mut u64,
        );
        pub fn market_risk_shortest(
            book: *const u8,
            len: usize,
            out: *mut u8,
            out_len: usize,
            result: *mut u64,
        );
        pub fn market_risk_least_trade(
            book: *const u8,
            len: usize,
            table: *const u8,
            table_len: usize,
            group: usize,
            band: usize,
            side: usize,
            limit: u64,
            result: *mut u64,
        );
        pub fn market_risk_dearest(
            rows: usize,
            most: u64,
            out: *mut u8,
            out_len: usize,
            result: *mut u64,
        );
        pub fn market_risk_options(
            table: *const u8,
            table_len: usize,
            out: *mut u8,
            out_len: usize,
            result: *mut u64,
        );
    }
}

/// Number, row, book.
pub fn check(book: &[u8], out: &mut [u64; 3]) {
    // SAFETY: the pointers come from references with these lengths, which the library's
    // promise covers for all bytes; it keeps none of them.
    unsafe { c::market_risk_check(book.as_ptr(), book.len(), out.as_mut_ptr()) }
}

/// Number, row, book; where the part of a class, 1 to 4, starts in the book; its length.
pub fn part(book: &[u8], class: usize, out: &mut [u64; 5]) {
    // SAFETY: as in `check`; every class is allowed.
    unsafe { c::market_risk_part(book.as_ptr(), book.len(), class, out.as_mut_ptr()) }
}

/// Document 01's table.
pub fn table(out: &mut [u8; 36]) {
    // SAFETY: as in `check`.
    unsafe { c::market_risk_table(out.as_mut_ptr()) }
}

/// Number, row, book; the six charges; the total; the rows taken; the specific interest
/// charges of currencies 0 to 31; their general interest charges.
pub fn charge(book: &[u8], table: &[u8], out: &mut [u64; 75]) {
    // SAFETY: as in `check`.
    unsafe {
        c::market_risk_charge(
            book.as_ptr(),
            book.len(),
            table.as_ptr(),
            table.len(),
            out.as_mut_ptr(),
        )
    }
}

/// Number, row, book; gross, vertical, zones 1, 2, 3, 1-2, 2-3, 1-3, residual, charge.
pub fn interest_ladder(book: &[u8], table: &[u8], group: usize, out: &mut [u64; 13]) {
    // SAFETY: as in `check`; every group is allowed.
    unsafe {
        c::market_risk_interest_ladder(
            book.as_ptr(),
            book.len(),
            table.as_ptr(),
            table.len(),
            group,
            out.as_mut_ptr(),
        )
    }
}

/// Number, row, book; matches, carried, residual, charge.
pub fn commodity_ladder(book: &[u8], group: usize, out: &mut [u64; 7]) {
    // SAFETY: as in `check`; every group is allowed.
    unsafe { c::market_risk_commodity_ladder(book.as_ptr(), book.len(), group, out.as_mut_ptr()) }
}

/// Number, row, book; exchange, commodity, total.
pub fn small_bank(book: &[u8], out: &mut [u64; 6]) {
    // SAFETY: as in `check`.
    unsafe { c::market_risk_small_bank(book.as_ptr(), book.len(), out.as_mut_ptr()) }
}

/// Number, row, book; the length of the joined book at the front of `out`.
pub fn join(a: &[u8], b: &[u8], out: &mut [u8], result: &mut [u64; 4]) {
    // SAFETY: as in `check`; `out` overlaps neither book, since it is borrowed alone.
    unsafe {
        c::market_risk_join(
            a.as_ptr(),
            a.len(),
            b.as_ptr(),
            b.len(),
            out.as_mut_ptr(),
            out.len(),
            result.as_mut_ptr(),
        )
    }
}

/// Number, row, book; the length of the netted book at the front of `out`; how many comparisons.
pub fn net(book: &[u8], out: &mut [u8], result: &mut [u64; 5]) {
    // SAFETY: as in `check`; `out` does not overlap the book, since it is borrowed alone.
    unsafe {
        c::market_risk_net(
            book.as_ptr(),
            book.len(),
            out.as_mut_ptr(),
            out.len(),
            result.as_mut_ptr(),
        )
    }
}

/// Number, row, book; the length of the written book at the front of `out`.
pub fn offset(book: &[u8], out: &mut [u8], result: &mut [u64; 4]) {
    // SAFETY: as in `net`.
    unsafe {
        c::market_risk_offset(
            book.as_ptr(),
            book.len(),
            out.as_mut_ptr(),
            out.len(),
            result.as_mut_ptr(),
        )
    }
}

/// Number, row, book; the length of the written book at the front of `out`; how many comparisons.
pub fn net_and_offset(book: &[u8], out: &mut [u8], result: &mut [u64; 5]) {
    // SAFETY: as in `net`.
    unsafe {
        c::market_risk_net_and_offset(
            book.as_ptr(),
            book.len(),
            out.as_mut_ptr(),
            out.len(),
            result.as_mut_ptr(),
        )
    }
}

/// Number, row, book; the length of the file at the front of `out`; 1 where the book is accepted.
pub fn shortest(book: &[u8], out: &mut [u8], result: &mut [u64; 5]) {
    // SAFETY: as in `net`.
    unsafe {
        c::market_risk_shortest(
            book.as_ptr(),
            book.len(),
            out.as_mut_ptr(),
            out.len(),
            result.as_mut_ptr(),
        )
    }
}

/// Number, row, book; 1 where an amount brings the charge within the limit; the least that does.
pub fn least_trade(
    book: &[u8],
    table: &[u8],
    group: usize,
    band: usize,
    side: usize,
    limit: u64,
    result: &mut [u64; 5],
) {
    // SAFETY: as in `check`; every group, band, side and limit is allowed.
    unsafe {
        c::market_risk_least_trade(
            book.as_ptr(),
            book.len(),
            table.as_ptr(),
            table.len(),
            group,
            band,
            side,
            limit,
            result.as_mut_ptr(),
        )
    }
}

/// Number, row, book; the length of the dearest book at the front of `out`; its total.
pub fn dearest(rows: usize, most: usize, out: &mut [u8], result: &mut [u64; 5]) {
    // SAFETY: as in `check`.
    unsafe {
        c::market_risk_dearest(
            rows,
            most as u64,
            out.as_mut_ptr(),
            out.len(),
            result.as_mut_ptr(),
        )
    }
}

/// Number, row, book; the length of the book of the deltas at the front of `out`; gamma of equity, foreign
/// exchange and commodities; vega of the same; the six charges of the book and its total.
pub fn options(table: &[u8], out: &mut [u8], result: &mut [u64; 17]) {
    // SAFETY: as in `net`.
    unsafe {
        c::market_risk_options(
            table.as_ptr(),
            table.len(),
            out.as_mut_ptr(),
            out.len(),
            result.as_mut_ptr(),
        )
    }
}
