//! What is counted of option tables: how many options they have, why they are refused, and which options
//! the accepted ones have.

use super::fields::bad;
use books::options::{decode, OptionRow, COUNT_BYTES, MOST_OPTIONS, OPTION_BYTES};

/// The names of numbers of options.
pub const SIZES: [&str; 5] = [
    "no options",
    "1 option",
    "2 to 9 options",
    "10 to 998",
    "999 or 1,000",
];
/// The names of reasons for 16, and of what stands beside them.
pub const LENGTHS: [&str; 8] = [
    "fewer than two bytes",
    "1,001 options",
    "more options",
    "one byte too few",
    "one byte too many",
    "another length",
    "a length beside a bad option",
    "a length without room",
];
/// The names of places of the first bad option, and of what stands beside it.
pub const PLACES: [&str; 6] = [
    "the first",
    "a later one",
    "the last of several",
    "one before another",
    "one with another number in its class",
    "one without room",
];
/// The names of the lengths of outputs beside what is to be written.
pub const ROOMS: [&str; 4] = [
    "just long enough",
    "longer",
    "one byte short",
    "long enough though not for each option",
];
/// The names of options.
pub const SORTS: [&str; 13] = [
    "shares",
    "currencies",
    "commodities",
    "bought calls",
    "bought puts",
    "sold calls",
    "sold puts",
    "delta 0",
    "delta 10,000",
    "whole amounts",
    "amounts rounded up by a half or more",
    "amounts rounded up by less",
    "rows in another order than the table's",
];

/// Which of the numbers of options this is.
pub fn of_size(count: usize) -> [bool; 5] {
    [
        count == 0,
        count == 1,
        (2..10).contains(&count),
        (10..MOST_OPTIONS - 1).contains(&count),
        count >= MOST_OPTIONS - 1,
    ]
}

/// The options that stand in a table of any length.
fn readable(bytes: &[u8]) -> impl Iterator<Item = OptionRow> + '_ {
    let rows = bytes.get(COUNT_BYTES..).unwrap_or(&[]);
    let rows = rows.chunks_exact(OPTION_BYTES);
    rows.map(|row| OptionRow::decode(row.try_into().expect("18 bytes")))
}

/// Which of the reasons a table that is refused with 16 has.
pub fn of_length(bytes: &[u8], room: usize) -> [bool; 8] {
    let count = bytes.first_chunk().map(|count| u16::from_le_bytes(*count));
    let counted = COUNT_BYTES + OPTION_BYTES * count.map_or(0, usize::from);
    let over = decode(bytes).map(|options| options.len() - MOST_OPTIONS);
    let (few, many) = (bytes.len() + 1 == counted, bytes.len() == counted + 1);
    let one_off = count.is_some() && (few || many);
    [
        count.is_none(),
        over == Some(1),
        over > Some(1),
        count.is_some() && few,
        count.is_some() && many,
        count.is_some() && over.is_none() && !one_off,
        readable(bytes).any(|option| bad(&option)),
        room < 8,
    ]
}

/// Which of the places the first bad option has, where a table is refused with 17.
pub fn of_place(options: &[OptionRow], row: usize, room: usize) -> [bool; 6] {
    let class = options[row].class;
    let before = options[..row].iter().filter(|one| one.class == class);
    [
        row == 0,
        row > 0,
        row > 0 && row + 1 == options.len(),
        options[row + 1..].iter().any(bad),
        before.count() != row,
        room < 8,
    ]
}

/// Which of the lengths an output has, of a book of so many bytes and so many options.
pub fn of_room(room: usize, length: usize, options: usize) -> [bool; 4] {
    [
        room == length,
        room > length,
        room + 1 == length,
        (length..8 + 16 * options).contains(&room),
    ]
}

/// Which of the options an accepted table has.
pub fn of_options(options: &[OptionRow]) -> [bool; 13] {
    let some = |wanted: &dyn Fn(&OptionRow) -> bool| options.iter().any(wanted);
    // What an amount lacks to the next unit, in ten-thousandths.
    let lacks = |option: &OptionRow| {
        let exact = u64::from(option.amount) * u64::from(option.delta);
        (10_000 - exact % 10_000) % 10_000
    };
    let rows = options.iter().filter(|option| option.delta > 0);
    [
        some(&|option| option.class == 2),
        some(&|option| option.class == 3),
        some(&|option| option.class == 4),
        some(&|option| option.right == 0),
        some(&|option| option.right == 1),
        some(&|option| option.right == 2),
        some(&|option| option.right == 3),
        some(&|option| option.delta == 0),
        some(&|option| option.delta == 10_000),
        some(&|option| option.delta > 0 && lacks(option) == 0),
        some(&|option| lacks(option) >= 5_000),
        some(&|option| (1..5_000).contains(&lacks(option))),
        !rows.is_sorted_by_key(|option| option.class),
    ]
}
