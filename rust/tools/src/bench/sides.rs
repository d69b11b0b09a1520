//! Who is timed for each call: the proved library first, then others and a floor.

use super::cases::{Case, Whose};
use super::dearest::amounts;
use super::expected::{
    expected, expected_in_room, expected_of_numbers, expected_of_outputs, expected_of_pairs,
    expected_of_trades,
};
use super::floors::{copy, copy_book, copy_book_bytes, copy_bytes, sum_bytes, sum_words};
use super::least_trade::{trades, Trade};
use super::timed::Timed;
use super::work::{
    in_room, of_book, of_group, of_numbers, of_output, of_pair, of_table, of_table_and_group,
    of_trades,
};
use super::work::{Answer, Work};
use crate::calls::{Calls, Second};
use crate::cli::Failure;
use market_risk::raw;
use std::rc::Rc;

/// All that is timed of one call on one case.
type Sides<'a> = Result<Vec<Timed<'a>>, Failure>;

/// One side: its name, its work and what it must answer.
type Side<'a> = (&'static str, Box<dyn Work + 'a>, Rc<[Answer]>);

/// A call, whether it takes a table, the cases that it is timed on, and how its sides are made.
pub struct Call {
    pub name: &'static str,
    pub takes_table: bool,
    pub whose: Whose,
    pub sides: fn(&Case) -> Sides,
}

impl Call {
    /// Whether the call is timed on a case.
    pub fn takes(&self, case: &Case) -> bool {
        let table = self.takes_table || !case.own_table();
        table && self.whose == case.whose
    }
}

/// The calls, in the order of the tables.
pub const CALLS: [Call; 13] = [
    Call {
        name: "check",
        takes_table: false,
        whose: Whose::Others,
        sides: check,
    },
    Call {
        name: "charge",
        takes_table: true,
        whose: Whose::Others,
        sides: charge,
    },
    Call {
        name: "interest ladder",
        takes_table: true,
        whose: Whose::Others,
        sides: interest_ladder,
    },
    Call {
        name: "commodity ladder",
        takes_table: false,
        whose: Whose::Others,
        sides: commodity_ladder,
    },
    Call {
        name: "small bank",
        takes_table: false,
        whose: Whose::SmallBank,
        sides: small_bank,
    },
    Call {
        name: "join",
        takes_table: false,
        whose: Whose::Others,
        sides: join,
    },
    Call {
        name: "net",
        takes_table: false,
        whose: Whose::Net,
        sides: net,
    },
    Call {
        name: "offset",
        takes_table: false,
        whose: Whose::Offset,
        sides: offset,
    },
    Call {
        name: "net and offset",
        takes_table: false,
        whose: Whose::Both,
        sides: net_and_offset,
    },
    Call {
        name: "shortest",
        takes_table: false,
        whose: Whose::Shortest,
        sides: shortest,
    },
    Call {
        name: "dearest",
        takes_table: false,
        whose: Whose::Dearest,
        sides: dearest,
    },
    Call {
        name: "options",
        takes_table: false,
        whose: Whose::Options,
        sides: options,
    },
    Call {
        name: "least trade",
        takes_table: true,
        whose: Whose::LeastTrade,
        sides: least_trade,
    },
];

/// Every side, compared with what it must answer.
fn compared<'a>(sides: Vec<Side<'a>>) -> Sides<'a> {
    let timed = |(name, work, expected)| Timed::new(name, work, expected);
    sides.into_iter().map(timed).collect()
}

/// The floor of the calls on one book.
fn words(case: &Case) -> Side<'_> {
    let expected = expected(case, |book, _, out| sum_bytes(book, out));
    ("words", of_book(&case.books, sum_words), expected)
}

fn check(case: &Case) -> Sides<'_> {
    let books = &case.books;
    let expected = expected(case, |book, _, out| Second.check(book, out));
    compared(vec![
        ("proved", of_book(books, raw::check), expected.clone()),
        ("Rust", of_book(books, fast::check), expected),
        words(case),
    ])
}

fn charge(case: &Case) -> Sides<'_> {
    let (books, table) = (&case.books, &case.table);
    let expected = expected(case, |book, _, out| Second.charge(book, table, out));
    let proved = of_table(books, table, raw::charge);
    let plain = of_table(books, table, fast::charge);
    let mut sides = vec![
        ("proved", proved, expected.clone()),
        ("Rust", plain, expected.clone()),
    ];
    if let Some(expert) = fast::expert_charge() {
        sides.push(("C", of_table(books, table, expert), expected));
    }
    sides.push(words(case));
    compared(sides)
}

fn interest_ladder(case: &Case) -> Sides<'_> {
    let (books, table) = (&case.books, &case.table);
    let expected = expected(case, |book, group, out| {
        Second.interest_ladder(book, table, group, out)
    });
    let proved = of_table_and_group(books, table, raw::interest_ladder);
    let plain = of_table_and_group(books, table, fast::interest_ladder);
    compared(vec![
        ("proved", proved, expected.clone()),
        ("Rust", plain, expected),
        words(case),
    ])
}

fn commodity_ladder(case: &Case) -> Sides<'_> {
    let books = &case.books;
    let expected = expected(case, |book, group, out| {
        Second.commodity_ladder(book, group, out)
    });
    let proved = of_group(books, raw::commodity_ladder);
    compared(vec![
        ("proved", proved, expected.clone()),
        ("Rust", of_group(books, fast::commodity_ladder), expected),
        words(case),
    ])
}

fn small_bank(case: &Case) -> Sides<'_> {
    let books = &case.books;
    let expected = expected(case, |book, _, out| Second.small_bank(book, out));
    let proved = of_book(books, raw::small_bank);
    compared(vec![
        ("proved", proved, expected.clone()),
        ("Rust", of_book(books, fast::small_bank), expected),
        words(case),
    ])
}

fn join(case: &Case) -> Sides<'_> {
    let pairs = &case.pairs;
    let expected = expected_of_pairs(case, |a, b, out, result| Second.join(a, b, out, result));
    let copied = expected_of_pairs(case, copy_bytes);
    compared(vec![
        ("proved", of_pair(pairs, raw::join), expected.clone()),
        ("Rust", of_pair(pairs, fast::join), expected),
        ("copy", of_pair(pairs, copy), copied),
    ])
}

fn net(case: &Case) -> Sides<'_> {
    let second = |book: &[u8], out: &mut [u8], result: &mut [u64; 5]| Second.net(book, out, result);
    written(case, second, raw::net, fast::net)
}

fn offset(case: &Case) -> Sides<'_> {
    let second =
        |book: &[u8], out: &mut [u8], result: &mut [u64; 4]| Second.offset(book, out, result);
    written(case, second, raw::offset, fast::offset)
}

fn net_and_offset(case: &Case) -> Sides<'_> {
    let second = |book: &[u8], out: &mut [u8], result: &mut [u64; 5]| {
        Second.net_and_offset(book, out, result);
    };
    written(case, second, raw::net_and_offset, fast::net_and_offset)
}

/// The floor is a pass over the book: hardly anything of it is written.
fn shortest(case: &Case) -> Sides<'_> {
    let books = &case.books;
    let second = |book: &[u8], out: &mut [u8], result: &mut [u64; 5]| {
        Second.shortest(book, out, result);
    };
    let expected = expected_of_outputs(case, second);
    compared(vec![
        ("proved", of_output(books, raw::shortest), expected.clone()),
        ("Rust", of_output(books, fast::shortest), expected),
        words(case),
    ])
}

/// The books of the case are those that are written; the floor copies them.
fn dearest(case: &Case) -> Sides<'_> {
    let (rows, amounts, books) = (case.rows, amounts(case), &case.books);
    let expected = expected_of_numbers(rows, &amounts, |rows, most, out, result| {
        Second.dearest(rows, most, out, result);
    });
    let copied = expected_of_outputs(case, copy_book_bytes::<5>);
    compared(vec![
        (
            "proved",
            of_numbers(rows, &amounts, raw::dearest),
            expected.clone(),
        ),
        ("Rust", of_numbers(rows, &amounts, fast::dearest), expected),
        ("copy", of_output(books, copy_book::<5>), copied),
    ])
}

/// The output has room for a row of each option; the floor copies the table.
fn options(case: &Case) -> Sides<'_> {
    let (tables, room) = (&case.books, 8 + 16 * case.rows);
    let expected = expected_in_room(case, room, |table, out, result| {
        Second.options(table, out, result);
    });
    let proved = in_room(tables, room, raw::options);
    let plain = in_room(tables, room, fast::options);
    let copied = expected_of_outputs(case, copy_book_bytes::<17>);
    compared(vec![
        ("proved", proved, expected.clone()),
        ("Rust", plain, expected),
        ("copy", of_output(tables, copy_book::<17>), copied),
    ])
}

/// Rust tries every amount in order, as the second calculation does.
fn least_trade(case: &Case) -> Sides<'_> {
    let (books, table, trades) = (&case.books, &case.table, trades(case));
    let second = |book: &[u8], trade: Trade, result: &mut [u64; 5]| {
        let ([group, band, side], limit) = (trade.place, trade.limit);
        *result = second::least_trade(book, table, group, band, side, limit).entries();
    };
    let expected = expected_of_trades(case, &trades, second);
    let proved = of_trades(books, table, trades.clone(), raw::least_trade);
    let plain = of_trades(books, table, trades, fast::least_trade);
    compared(vec![
        ("proved", proved, expected.clone()),
        ("Rust", plain, expected),
        words(case),
    ])
}

/// The sides of a call on a book that writes another.
fn written<'a, const N: usize>(
    case: &'a Case,
    second: impl Fn(&[u8], &mut [u8], &mut [u64; N]),
    proved: impl Fn(&[u8], &mut [u8], &mut [u64; N]) + 'a,
    plain: impl Fn(&[u8], &mut [u8], &mut [u64; N]) + 'a,
) -> Sides<'a> {
    let books = &case.books;
    let expected = expected_of_outputs(case, second);
    let copied = expected_of_outputs(case, copy_book_bytes::<N>);
    compared(vec![
        ("proved", of_output(books, proved), expected.clone()),
        ("Rust", of_output(books, plain), expected),
        ("copy", of_output(books, copy_book::<N>), copied),
    ])
}
