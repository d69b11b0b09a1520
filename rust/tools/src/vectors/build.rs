//! Calls and books put together by hand.

use books::{Book, Row};

/// A call, with what it is given besides its first book. Where no table is given, the charge
/// and the interest ladder are under document 01's.
#[derive(Clone, Debug, PartialEq, Eq)]
pub enum Call {
    Check,
    Charge,
    InterestLadder(u16),
    CommodityLadder(u16),
    Join { other: Vec<u8>, room: u32 },
    ChargeBy { table: Vec<u8> },
    InterestLadderBy { table: Vec<u8>, group: u16 },
    Table,
    SmallBank,
    Net { room: u32 },
    Offset { room: u32 },
    NetAndOffset { room: u32 },
    Shortest { room: u32 },
    Dearest { room: u32, rows: u32, most: u32 },
    Options { room: u32 },
    LeastTrade(Trade),
}

/// What a least trade is given besides its book.
#[derive(Clone, Debug, PartialEq, Eq)]
pub struct Trade {
    pub table: Vec<u8>,
    pub group: u16,
    pub band: u16,
    pub side: u16,
    pub limit: u64,
}

/// One stored call, of a book or, where it is of options, of an option table.
#[derive(Clone, Debug, PartialEq, Eq)]
pub struct Case {
    pub call: Call,
    pub book: Vec<u8>,
}

/// A call of a book.
pub fn call(call: Call, book: &[u8]) -> Case {
    Case {
        call,
        book: book.to_vec(),
    }
}

/// The small bank's charge of a book.
pub fn small_bank(book: &[u8]) -> Case {
    call(Call::SmallBank, book)
}

/// The charge of a book by a table.
pub fn charge_by(table: &[u8], book: &[u8]) -> Case {
    let table = table.to_vec();
    call(Call::ChargeBy { table }, book)
}

/// The interest ladder of a book by a table.
pub fn ladder_by(table: &[u8], group: u16, book: &[u8]) -> Case {
    let table = table.to_vec();
    call(Call::InterestLadderBy { table, group }, book)
}

/// The length of an output.
fn length(room: usize) -> u32 {
    u32::try_from(room).expect("an output of at most 65,536 bytes")
}

/// Netting with so much room.
pub fn net(book: &[u8], room: usize) -> Case {
    let room = length(room);
    call(Call::Net { room }, book)
}

/// Offsetting with so much room.
pub fn offset(book: &[u8], room: usize) -> Case {
    let room = length(room);
    call(Call::Offset { room }, book)
}

/// Netting and then offsetting with so much room.
pub fn net_and_offset(book: &[u8], room: usize) -> Case {
    let room = length(room);
    call(Call::NetAndOffset { room }, book)
}

/// The shortest file that shows a book's refusal, with so much room.
pub fn shortest(book: &[u8], room: usize) -> Case {
    let room = length(room);
    call(Call::Shortest { room }, book)
}

/// The dearest book of so many rows of at most so much, with so much room. It is given no book.
pub fn dearest(rows: u32, most: u32, room: usize) -> Case {
    let room = length(room);
    call(Call::Dearest { room, rows, most }, &[])
}

/// The charges of an option table, with so much room. The table stands in the place of a book.
pub fn options(table: &[u8], room: usize) -> Case {
    let room = length(room);
    call(Call::Options { room }, table)
}

/// A call that writes a book of so many bytes, into an output of every length that matters.
pub fn around(book: &[u8], written: usize, into: fn(&[u8], usize) -> Case) -> Vec<Case> {
    let rooms = [0, 7, 8, written - 1, written, written + 1, book.len() + 40];
    rooms.map(|room| into(book, room)).to_vec()
}

/// A join with so much room.
pub fn join(a: &[u8], b: &[u8], room: usize) -> Case {
    let room = length(room);
    call(
        Call::Join {
            other: b.to_vec(),
            room,
        },
        a,
    )
}

/// The check and the charge of a book, and both ladders of each of some groups.
pub fn all_calls(book: &[u8], groups: &[u16]) -> Vec<Case> {
    let mut calls = vec![Call::Check, Call::Charge];
    for group in groups {
        calls.push(Call::InterestLadder(*group));
        calls.push(Call::CommodityLadder(*group));
    }
    calls.into_iter().map(|which| call(which, book)).collect()
}

/// A row with one signed amount: long above zero, short below.
pub fn row(group: u8, kind: u8, days: u16, coupon: u16, net: i64) -> Row {
    let amount = u32::try_from(net.unsigned_abs()).expect("an amount of four bytes");
    let long = if net > 0 { amount } else { 0 };
    Row {
        group,
        kind,
        days,
        coupon,
        issue: 0,
        long,
        short: amount - long,
    }
}

/// A row that its class accepts.
pub fn clean(class: usize) -> Row {
    match class {
        0 => row(1, 2, 400, 500, 10),
        1 => row(2, 2, 0, 0, -20),
        2 => row(3, 0, 0, 0, 30),
        _ => row(4, 0, 400, 0, -40),
    }
}

/// The bytes of four bodies.
pub fn book(classes: [&[Row]; 4]) -> Vec<u8> {
    let classes = classes.map(<[Row]>::to_vec);
    Book { classes }.encode().expect("counts of two bytes")
}

/// A book of one class alone.
pub fn only(class: usize, rows: &[Row]) -> Vec<u8> {
    let mut classes: [&[Row]; 4] = [&[]; 4];
    classes[class] = rows;
    book(classes)
}
