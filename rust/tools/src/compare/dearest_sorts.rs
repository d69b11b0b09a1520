//! What is counted of a dearest book that is asked for: its rows, its largest amount and its refusal.

use super::asked::{Asked, MOST_AMOUNT, MOST_ROWS};

/// The names of numbers of rows.
pub const ROWS: [&str; 6] = [
    "no rows",
    "1 row",
    "some rows",
    "3,999 or 4,000",
    "4,001",
    "more",
];
/// The names of largest amounts.
pub const AMOUNTS: [&str; 6] = ["0", "1", "some", "1,000,000,000", "one more", "much more"];
/// The names of refusals.
pub const REFUSED: [&str; 5] = [
    "22 for the rows alone",
    "22 for the amount alone",
    "22 for both",
    "22 without room",
    "12",
];
/// The names of the lengths of outputs beside what is to be written.
pub const ROOMS: [&str; 3] = ["just long enough", "longer", "one byte short"];
/// The names of costs beside the most that they can be, of first books and of dear ones.
pub const FIRST: [&str; 2] = ["below half of the most", "at half of it or more"];
pub const DEAR: [&str; 3] = ["below the most", "at nine tenths of it or more", "as dear"];

/// Which of the numbers of rows this is.
pub fn of_rows(rows: usize) -> [bool; 6] {
    [
        rows == 0,
        rows == 1,
        (2..MOST_ROWS - 1).contains(&rows),
        rows == MOST_ROWS - 1 || rows == MOST_ROWS,
        rows == MOST_ROWS + 1,
        rows > MOST_ROWS + 1,
    ]
}

/// Which of the amounts this is.
pub fn of_amount(most: usize) -> [bool; 6] {
    [
        most == 0,
        most == 1,
        (2..MOST_AMOUNT).contains(&most),
        most == MOST_AMOUNT,
        most == MOST_AMOUNT + 1,
        most > MOST_AMOUNT + 1,
    ]
}

/// Which of the refusals a call meets.
pub fn refused(asked: &Asked) -> [bool; 5] {
    let short = asked.room < asked.length();
    let many = asked.rows > MOST_ROWS;
    let amount = !(1..=MOST_AMOUNT).contains(&asked.most);
    [
        many && !amount,
        !many && amount,
        many && amount,
        (many || amount) && short,
        asked.taken() && short,
    ]
}
