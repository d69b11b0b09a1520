//! The book file: its counts, its four bodies and the first refusal.

use crate::row::{Row, LIMITS};

/// The most rows that a book may have.
pub const MOST_ROWS: usize = 4_000;

/// A refusal: its number and its row.
#[derive(Clone, Copy)]
pub struct Bad {
    pub number: u64,
    pub row: usize,
}

/// A book whose length agrees with its counts; its rows are not looked at.
#[derive(Clone, Copy)]
pub struct Book<'a> {
    pub counts: [usize; 4],
    pub rows: usize,
    pub bodies: [&'a [u8]; 4],
}

/// The four bodies.
#[inline(always)]
fn split(body: &[u8], counts: [usize; 4]) -> [&[u8]; 4] {
    let (interest, rest) = body.split_at(16 * counts[0]);
    let (equity, rest) = rest.split_at(16 * counts[1]);
    let (exchange, commodity) = rest.split_at(16 * counts[2]);
    [interest, equity, exchange, commodity]
}

impl<'a> Book<'a> {
    /// Reads the counts: refusals 1 to 3.
    #[inline(always)]
    pub fn open(bytes: &'a [u8]) -> Result<Book<'a>, Bad> {
        let refuse = |number| Err(Bad { number, row: 0 });
        let Some((head, body)) = bytes.split_first_chunk::<8>() else {
            return refuse(1);
        };
        let count = |at: usize| usize::from(u16::from_le_bytes([head[at], head[at + 1]]));
        let counts = [count(0), count(2), count(4), count(6)];
        let rows = counts.iter().sum();
        if rows > MOST_ROWS {
            refuse(2)
        } else if body.len() != 16 * rows {
            refuse(3)
        } else {
            let bodies = split(body, counts);
            Ok(Book {
                counts,
                rows,
                bodies,
            })
        }
    }

    /// Checks the rows of one class and hands each to `take`: refusals 4 to 9 and 15. Gives
    /// how many were taken: the place that the pass has come to counts them.
    #[inline(always)]
    pub fn each(&self, class: usize, mut take: impl FnMut(Row)) -> Result<usize, Bad> {
        let limits = &LIMITS[class];
        let mut rows = self.bodies[class].chunks_exact(16);
        let count = rows.len();
        while let Some(bytes) = rows.next() {
            let row = Row::decode(bytes.try_into().expect("chunks of 16 bytes"));
            if !row.clean(limits) {
                let first: usize = self.counts[..class].iter().sum();
                return Err(Bad {
                    number: row.fault(limits),
                    row: first + count - rows.len() - 1,
                });
            }
            take(row);
        }
        Ok(count - rows.len())
    }

    /// Checks every row. Each class has a loop of its own, with its limits in it.
    #[inline(always)]
    pub fn check(&self) -> Result<(), Bad> {
        self.each(0, |_| ())?;
        self.each(1, |_| ())?;
        self.each(2, |_| ())?;
        self.each(3, |_| ()).map(drop)
    }
}
