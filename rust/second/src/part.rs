//! The part of the file that each class is handed (document 01, The book file).

use crate::book::{read, Class, Refusal, CLASSES};

/// The refusal, and where the part starts in the file and its length; both zero on a refusal, and
/// where the number is no class.
#[derive(Clone, Copy, Debug, Default, PartialEq, Eq)]
pub struct Part {
    pub refusal: Refusal,
    pub start: u64,
    pub length: u64,
}

/// The class with a number from 1 on.
fn numbered(number: usize) -> Option<Class> {
    let mut classes = (1..).zip(CLASSES);
    classes.find(|(own, _)| *own == number).map(|own| own.1)
}

/// Where the rows of a class lie in the file of these rows.
fn place(rows: &[Class], class: Class) -> Part {
    let before = CLASSES.iter().take_while(|other| **other != class);
    let count = |class: &Class| rows.iter().filter(|row| *row == class).count() as u64;
    Part {
        refusal: Refusal::NONE,
        start: 8 + 16 * before.map(count).sum::<u64>(),
        length: 16 * count(&class),
    }
}

/// The part of a class, 1 to 4.
pub fn part(book: &[u8], number: usize) -> Part {
    match read(book) {
        Ok(rows) => {
            let rows: Vec<Class> = rows.iter().map(|row| row.class).collect();
            numbered(number).map_or(Part::default(), |class| place(&rows, class))
        }
        Err(refusal) => Part {
            refusal,
            ..Part::default()
        },
    }
}
