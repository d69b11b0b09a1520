//! The rows of one issue into one: the rows are checked and netted in one pass, then written. Each
//! numbered row is looked for among the numbers seen in its class, in order, and how many of these
//! it is compared with follows from the place where it is found.

use crate::book::{Bad, Book, MOST_ROWS};
use crate::row::{Row, MOST};

/// How many numbers are compared at once.
const BLOCK: usize = 16;

/// What is kept of the rows, N at most: a row of each issue in the place of its first, and every
/// row that has no issue number.
pub struct Kept<const N: usize> {
    /// Bytes 0 to 7.
    pub heads: [u64; N],
    pub nets: [i64; N],
    /// The number of the first row in the file.
    rows: [u16; N],
    count: usize,
}

/// The issues seen in a class: their numbers, and their places among what is kept.
struct Seen<const N: usize> {
    numbers: [u16; N],
    places: [u16; N],
    count: usize,
    /// Comparisons, in all classes.
    comparisons: usize,
}

impl<const N: usize> Seen<N> {
    /// The place of a number among those seen, block by block. What lies past the last is not
    /// one: 0 is no issue, and an older number of the array may stand there.
    #[inline(always)]
    fn find(&self, issue: u16) -> Option<usize> {
        let numbers = &self.numbers[..self.count];
        let mut blocks = numbers.chunks_exact(BLOCK);
        let mut start = 0;
        for block in &mut blocks {
            if block.iter().fold(false, |any, own| any | (*own == issue)) {
                let within = block.iter().position(|own| *own == issue)?;
                return Some(start + within);
            }
            start += BLOCK;
        }
        let rest = blocks.remainder().iter();
        Some(start + rest.copied().position(|own| own == issue)?)
    }

    /// The same, with the comparisons counted: up to the number, or all.
    #[inline(always)]
    fn look_for(&mut self, issue: u16) -> Option<usize> {
        let found = self.find(issue);
        self.comparisons += found.map_or(self.count, |place| place + 1);
        found
    }
}

impl<const N: usize> Kept<N> {
    /// Keeps a row in a place of its own.
    #[inline(always)]
    fn push(&mut self, row: Row, at: usize) {
        let place = self.count;
        (self.heads[place], self.nets[place]) = (row.head(), row.net());
        self.rows[place] = at as u16;
        self.count += 1;
    }

    /// Takes the row with this number in, and tells whether it is like the first of its issue:
    /// the numbers are equal, so that the heads differ in group, kind, days or coupon.
    #[inline(always)]
    fn take(&mut self, seen: &mut Seen<N>, row: Row, at: usize) -> bool {
        if row.issue() == 0 {
            self.push(row, at);
            return true;
        }
        if let Some(found) = seen.look_for(row.issue()) {
            let place = usize::from(seen.places[found]);
            self.nets[place] += row.net();
            return self.heads[place] == row.head();
        }
        seen.numbers[seen.count] = row.issue();
        seen.places[seen.count] = self.count as u16;
        seen.count += 1;
        self.push(row, at);
        true
    }

    /// The row of the first net that is too large.
    #[inline(always)]
    fn over(&self) -> Option<usize> {
        let nets = &self.nets[..self.count];
        let large = |net: &i64| net.unsigned_abs() > u64::from(MOST);
        let place = nets.iter().position(large)?;
        Some(usize::from(self.rows[place]))
    }

    /// Writes the rows of some places whose nets are not zero, and gives how many.
    #[inline(always)]
    fn write(
        &self,
        places: std::ops::Range<usize>,
        rows: &mut std::slice::ChunksExactMut<u8>,
    ) -> u16 {
        let mut count = 0;
        for (head, net) in self.heads[places.clone()].iter().zip(&self.nets[places]) {
            if *net != 0 {
                let amounts = if *net > 0 {
                    *net as u64
                } else {
                    net.unsigned_abs() << 32
                };
                let row = rows.next().expect("room for each row");
                row[..8].copy_from_slice(&head.to_le_bytes());
                row[8..].copy_from_slice(&amounts.to_le_bytes());
                count += 1;
            }
        }
        count
    }
}

/// What is known of a book so far.
struct Netting<const N: usize> {
    kept: Kept<N>,
    seen: Seen<N>,
    /// How many rows were taken.
    taken: usize,
    /// The first row that is not like the first of its issue.
    unlike: Option<usize>,
}

impl<const N: usize> Netting<N> {
    const NOTHING: Netting<N> = Netting {
        kept: Kept {
            heads: [0; N],
            nets: [0; N],
            rows: [0; N],
            count: 0,
        },
        seen: Seen {
            numbers: [0; N],
            places: [0; N],
            count: 0,
            comparisons: 0,
        },
        taken: 0,
        unlike: None,
    };

    /// Takes the rows of a class in and gives how many rows are kept by then.
    #[inline(always)]
    fn take(&mut self, book: &Book, class: usize) -> Result<usize, Bad> {
        self.seen.count = 0;
        book.each(class, |row| {
            if !self.kept.take(&mut self.seen, row, self.taken) {
                self.unlike = self.unlike.or(Some(self.taken));
            }
            self.taken += 1;
        })?;
        Ok(self.kept.count)
    }
}

/// Nets a book of at most N rows, and offsets its legs where that is wanted: the length that is
/// written, and the comparisons. Each class has a loop of its own, with its limits in it.
#[inline(always)]
fn within<const N: usize, const OFFSET: bool>(
    book: &Book,
    out: &mut [u8],
) -> Result<[usize; 2], Bad> {
    let mut netting = Netting::<N>::NOTHING;
    let ends = [
        netting.take(book, 0)?,
        netting.take(book, 1)?,
        netting.take(book, 2)?,
        netting.take(book, 3)?,
    ];
    refuse(13, netting.unlike)?;
    refuse(14, netting.kept.over())?;
    if OFFSET {
        netting.kept.offset(ends[0]);
    }
    let length = written(&netting.kept, ends, out)?;
    Ok([length, netting.seen.comparisons])
}

/// Refuses with a number, where there is a row for it.
#[inline(always)]
fn refuse(number: u64, row: Option<usize>) -> Result<(), Bad> {
    row.map_or(Ok(()), |row| Err(Bad { number, row }))
}

/// Writes what is kept, class by class, where there is room for it.
#[inline(always)]
fn written<const N: usize>(kept: &Kept<N>, ends: [usize; 4], out: &mut [u8]) -> Result<usize, Bad> {
    let nets = kept.nets[..kept.count].iter();
    let length = 8 + 16 * nets.filter(|net| **net != 0).count();
    let out = out.get_mut(..length).ok_or(Bad { number: 12, row: 0 })?;
    let (head, body) = out.split_at_mut(8);
    let (mut rows, mut start) = (body.chunks_exact_mut(16), 0);
    for (count, end) in head.chunks_exact_mut(2).zip(ends) {
        count.copy_from_slice(&kept.write(start..end, &mut rows).to_le_bytes());
        start = end;
    }
    Ok(length)
}

/// Number, row, book; the length of the netted book at the front of `out`; comparisons.
pub fn net(bytes: &[u8], out: &mut [u8], result: &mut [u64; 5]) {
    netting::<false>(bytes, out, result);
}

/// The same, with the legs offset or not. A small book has small arrays: clearing those of a full
/// one takes longer than netting it.
#[inline(always)]
pub fn netting<const OFFSET: bool>(bytes: &[u8], out: &mut [u8], result: &mut [u64; 5]) {
    let netted = Book::open(bytes).and_then(|book| match book.rows {
        0..=64 => within::<64, OFFSET>(&book, out),
        65..=512 => within::<512, OFFSET>(&book, out),
        _ => within::<MOST_ROWS, OFFSET>(&book, out),
    });
    *result = match netted {
        Ok([length, comparisons]) => [0, 0, 0, length as u64, comparisons as u64],
        Err(bad) => [bad.number, bad.row as u64, 0, 0, 0],
    }
}
