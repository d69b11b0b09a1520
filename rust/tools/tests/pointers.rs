//! The header's promise that a null pointer with length 0 is a file or table of no bytes.

use market_risk as _; // links the proved library
use std::ptr::{null, null_mut};

extern "C" {
    fn market_risk_check(book: *const u8, len: usize, out: *mut u64);
    fn market_risk_part(book: *const u8, len: usize, class: usize, out: *mut u64);
    fn market_risk_charge(
        book: *const u8,
        len: usize,
        table: *const u8,
        table_len: usize,
        out: *mut u64,
    );
    fn market_risk_interest_ladder(
        book: *const u8,
        len: usize,
        table: *const u8,
        table_len: usize,
        group: usize,
        out: *mut u64,
    );
    fn market_risk_commodity_ladder(book: *const u8, len: usize, group: usize, out: *mut u64);
    fn market_risk_small_bank(book: *const u8, len: usize, out: *mut u64);
    fn market_risk_join(
        a: *const u8,
        a_len: usize,
        b: *const u8,
        b_len: usize,
        out: *mut u8,
        out_len: usize,
        result: *mut u64,
    );
    fn market_risk_net(book: *const u8, len: usize, out: *mut u8, out_len: usize, result: *mut u64);
    fn market_risk_offset(
        book: *const u8,
        len: usize,
        out: *mut u8,
        out_len: usize,
        result: *mut u64,
    );
    fn market_risk_net_and_offset(
        book: *const u8,
        len: usize,
        out: *mut u8,
        out_len: usize,
        result: *mut u64,
    );
    fn market_risk_shortest(
        book: *const u8,
        len: usize,
        out: *mut u8,
        out_len: usize,
        result: *mut u64,
    );
    fn market_risk_dearest(rows: usize, most: u64, out: *mut u8, out_len: usize, result: *mut u64);
    fn market_risk_options(
        table: *const u8,
        table_len: usize,
        out: *mut u8,
        out_len: usize,
        result: *mut u64,
    );
    fn market_risk_least_trade(
        book: *const u8,
        len: usize,
        table: *const u8,
        table_len: usize,
        group: usize,
        band: usize,
        side: usize,
        limit: u64,
        result: *mut u64,
    );
}

/// A result in which every entry is marked, with room for the longest.
const MARKED: [u64; 75] = [u64::MAX; 75];

/// A book without rows.
const EMPTY: [u8; 8] = [0; 8];

/// A table of zeros, which is accepted.
const TABLE: [u8; 36] = [0; 36];

/// A call over null pointers, with the number of its entries.
type Call<'a> = (usize, &'a dyn Fn(*mut u64));

/// Each call must be refused with a number and write its own entries alone.
fn refused_with(number: u64, calls: &[Call]) {
    for (entries, call) in calls {
        let mut out = MARKED;
        call(out.as_mut_ptr());
        assert_eq!(out[0], number, "{entries} entries");
        assert!(out[1..*entries].iter().all(|entry| *entry == 0));
        assert_eq!(out[*entries..], MARKED[*entries..]);
    }
}

/// Catches a call that reads through the pointer, or takes null for something other than
/// the file of no bytes, which is refused with 1.
#[test]
fn null_with_length_0_is_a_file_of_no_bytes() {
    let (table, length) = (TABLE.as_ptr(), TABLE.len());
    let calls: [Call; 10] = [
        // SAFETY, here and below: the header allows null with length 0, and every result
        // has room for its entries.
        (3, &|out| unsafe { market_risk_check(null(), 0, out) }),
        (5, &|out| unsafe { market_risk_part(null(), 0, 1, out) }),
        (75, &|out| unsafe {
            market_risk_charge(null(), 0, table, length, out)
        }),
        (13, &|out| unsafe {
            market_risk_interest_ladder(null(), 0, table, length, 7, out)
        }),
        (7, &|out| unsafe {
            market_risk_commodity_ladder(null(), 0, 7, out)
        }),
        (6, &|out| unsafe { market_risk_small_bank(null(), 0, out) }),
        (5, &|out| unsafe {
            market_risk_net(null(), 0, null_mut(), 0, out)
        }),
        (4, &|out| unsafe {
            market_risk_offset(null(), 0, null_mut(), 0, out)
        }),
        (5, &|out| unsafe {
            market_risk_net_and_offset(null(), 0, null_mut(), 0, out)
        }),
        (5, &|out| unsafe {
            market_risk_least_trade(null(), 0, table, length, 7, 14, 1, 0, out)
        }),
    ];
    refused_with(1, &calls);
    // A band and a side are tried before the book.
    let outside: [Call; 2] = [
        (5, &|out| unsafe {
            market_risk_least_trade(null(), 0, table, length, 7, 15, 1, 0, out)
        }),
        (5, &|out| unsafe {
            market_risk_least_trade(null(), 0, table, length, 7, 14, 2, 0, out)
        }),
    ];
    refused_with(21, &outside);
}

/// The same of a table, which is refused with 18, whether the book is null too or not.
#[test]
fn null_with_length_0_is_a_table_of_no_bytes() {
    for (book, length) in [(null(), 0), (EMPTY.as_ptr(), EMPTY.len())] {
        let calls: [Call; 3] = [
            (75, &|out| unsafe {
                market_risk_charge(book, length, null(), 0, out)
            }),
            (13, &|out| unsafe {
                market_risk_interest_ladder(book, length, null(), 0, 7, out)
            }),
            (5, &|out| unsafe {
                market_risk_least_trade(book, length, null(), 0, 7, 15, 2, 0, out)
            }),
        ];
        refused_with(18, &calls);
    }
}

/// Runs a join with null in the place of whichever book is absent, and of the output.
fn join(a: Option<&[u8]>, b: Option<&[u8]>) -> [u64; 4] {
    let of = |book: Option<&[u8]>| book.map_or((null(), 0), |book| (book.as_ptr(), book.len()));
    let ((a, a_len), (b, b_len)) = (of(a), of(b));
    let mut result = [u64::MAX; 4];
    unsafe { market_risk_join(a, a_len, b, b_len, null_mut(), 0, result.as_mut_ptr()) };
    result
}

/// Catches a join that reads a null book or writes to a null output: refused with 1, the
/// second book's fault as 1 of book 1, and an output without room with 12.
#[test]
fn null_books_and_a_null_output_are_joined() {
    assert_eq!(join(None, None), [1, 0, 0, 0]);
    assert_eq!(join(None, Some(&EMPTY)), [1, 0, 0, 0]);
    assert_eq!(join(Some(&EMPTY), None), [1, 0, 1, 0]);
    assert_eq!(join(Some(&EMPTY), Some(&EMPTY)), [12, 0, 0, 0]);
}

/// Catches netting or offsetting, or both, or the dearest book that write to a null output, which has no
/// room for a book without rows.
#[test]
fn a_null_output_has_no_room() {
    let calls: [Call; 4] = [
        (5, &|out| unsafe {
            market_risk_net(EMPTY.as_ptr(), EMPTY.len(), null_mut(), 0, out)
        }),
        (4, &|out| unsafe {
            market_risk_offset(EMPTY.as_ptr(), EMPTY.len(), null_mut(), 0, out)
        }),
        (5, &|out| unsafe {
            market_risk_net_and_offset(EMPTY.as_ptr(), EMPTY.len(), null_mut(), 0, out)
        }),
        (5, &|out| unsafe {
            market_risk_dearest(0, 1, null_mut(), 0, out)
        }),
    ];
    refused_with(12, &calls);
    let refused: Call = (5, &|out| unsafe {
        market_risk_dearest(4_001, 0, null_mut(), 0, out)
    });
    refused_with(22, &[refused]);
}

/// Runs the call for the shortest file with a null output, and with null for a book that is absent.
fn shortest(book: Option<&[u8]>) -> [u64; 5] {
    let (book, len) = book.map_or((null(), 0), |book| (book.as_ptr(), book.len()));
    let mut result = [u64::MAX; 5];
    unsafe { market_risk_shortest(book, len, null_mut(), 0, result.as_mut_ptr()) };
    result
}

/// Catches a call that reads a null book or writes to a null output: for no bytes, which are refused
/// with 1, and for an accepted book there is nothing to write, and for nine bytes no room.
#[test]
fn null_books_and_a_null_output_are_shown() {
    assert_eq!(shortest(None), [0, 0, 0, 0, 0]);
    assert_eq!(shortest(Some(&EMPTY)), [0, 0, 0, 0, 1]);
    assert_eq!(shortest(Some(&[0; 9])), [12, 0, 0, 0, 0]);
}

/// Catches a call that reads a null option table, which is refused with 16, or writes to a null output, which
/// has no room for a book without rows.
#[test]
fn null_options_and_a_null_output() {
    let none = [0; 2];
    let mut out = [0xa5; 8];
    let room = out.as_mut_ptr();
    let calls: [Call; 2] = [
        (17, &|result| unsafe {
            market_risk_options(null(), 0, null_mut(), 0, result)
        }),
        (17, &|result| unsafe {
            market_risk_options(null(), 0, room, 8, result)
        }),
    ];
    refused_with(16, &calls);
    assert_eq!(out, [0xa5; 8]);
    let short: Call = (17, &|result| unsafe {
        market_risk_options(none.as_ptr(), none.len(), null_mut(), 0, result)
    });
    refused_with(12, &[short]);
    // An option of zeros, whose class is none.
    let bad = [&[1, 0][..], &[0; 18]].concat();
    let outside: Call = (17, &|result| unsafe {
        market_risk_options(bad.as_ptr(), bad.len(), null_mut(), 0, result)
    });
    refused_with(17, &[outside]);
}
