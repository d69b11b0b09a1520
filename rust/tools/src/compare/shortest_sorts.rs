//! What is counted of a refusal that is shown: the sort of the contents, the place of the row, and
//! whether another bad row stands behind it.

use books::Book;

/// The sorts of files that are refused for their contents.
pub const CONTENTS: [&str; 6] = [
    "1 into no bytes",
    "1 into some",
    "2 in eight bytes",
    "2 with bytes behind",
    "3 without a row counted",
    "3 with rows counted",
];

/// The places of a row in its class.
pub const PLACES: [&str; 4] = ["alone", "first", "between", "last"];

/// Where another bad row stands.
pub const SEVERAL: [&str; 2] = ["in its class", "in a later class"];

/// Which of the sorts a refused file is of, with so much room.
pub fn contents(bytes: &[u8], number: u64, room: usize) -> [bool; 6] {
    let counted = bytes.iter().take(8).any(|byte| *byte != 0);
    [
        number == 1 && room == 0,
        number == 1 && room > 0,
        number == 2 && bytes.len() == 8,
        number == 2 && bytes.len() > 8,
        number == 3 && !counted,
        number == 3 && counted,
    ]
}

/// The place of a row among the rows of its class.
pub fn place(row: usize, rows: usize) -> [bool; 4] {
    let (first, last) = (row == 0, row + 1 == rows);
    [
        first && last,
        first && !last,
        !first && !last,
        !first && last,
    ]
}

/// Whether a book that was cut after its first bad row has another, in a class and behind it.
pub fn others(book: &Book, class: usize, row: usize) -> [bool; 2] {
    let mut rest = book.clone();
    rest.classes[..class].iter_mut().for_each(Vec::clear);
    rest.classes[class].drain(..=row);
    let bad = |book: &Book| second::check(&book.encode().expect("fewer rows")).number > 0;
    let mut own = Book::default();
    own.classes[class] = std::mem::take(&mut rest.classes[class]);
    [bad(&own), bad(&rest)]
}
