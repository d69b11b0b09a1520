//! What is asked of the dearest book: rows, a largest amount and the length of the output.

use super::case::room;
use books::Random;

/// The three numbers of a call.
#[derive(Clone, Copy, Debug, PartialEq, Eq)]
pub struct Asked {
    pub rows: usize,
    pub most: usize,
    pub room: usize,
}

/// The most rows and the largest amount that are taken.
pub const MOST_ROWS: usize = 4_000;
pub const MOST_AMOUNT: usize = 1_000_000_000;

/// A number of rows: mostly few, sometimes at the limit or past it.
fn rows(random: &mut Random) -> usize {
    match random.below(16) {
        0 => random.pick(&[
            4_001,
            4_001,
            65_536,
            69_536,
            1 << 32,
            (1 << 32) + 2,
            usize::MAX,
        ]),
        1 => random.pick(&[0, 255, 256, 3_999, 4_000]),
        2 => 1 + random.below(MOST_ROWS as u64) as usize,
        _ => random.below(40) as usize,
    }
}

/// A largest amount: mostly small, sometimes at a limit or past it.
fn most(random: &mut Random) -> usize {
    match random.below(12) {
        0 => random.pick(&[
            0,
            MOST_AMOUNT + 1,
            1 << 31,
            1 << 32,
            (1 << 32) + 7,
            usize::MAX,
        ]),
        1 => random.pick(&[1, 255, 256, 65_536, MOST_AMOUNT - 1, MOST_AMOUNT]),
        2 | 3 => 1 + random.below(MOST_AMOUNT as u64) as usize,
        _ => 1 + random.below(1_000) as usize,
    }
}

impl Asked {
    /// Random numbers, and an output that is mostly next to the book's length, of too many rows next to
    /// what a little more than 4,000 would want.
    pub fn new(random: &mut Random) -> Asked {
        let (rows, most) = (rows(random), most(random));
        let room = room(random, 8 + 16 * rows.min(MOST_ROWS + 1));
        Asked { rows, most, room }
    }

    /// Whether the numbers are taken.
    pub fn taken(&self) -> bool {
        self.rows <= MOST_ROWS && (1..=MOST_AMOUNT).contains(&self.most)
    }

    /// The length of the book, of as many rows as may be.
    pub fn length(&self) -> usize {
        8 + 16 * self.rows.min(MOST_ROWS + 1)
    }

    /// The same with other rows. The output keeps its distance from what is written.
    fn with_rows(self, rows: usize) -> Asked {
        let mut asked = Asked { rows, ..self };
        asked.room = (self.room + asked.length()).saturating_sub(self.length());
        asked
    }

    /// Plainer numbers next to these: fewer rows, hardly any with the output as it is, a smaller amount, no
    /// output or one that is just long enough.
    pub fn plainer(self) -> impl Iterator<Item = Asked> {
        let fewer = [0, 1, self.rows / 2, self.rows.saturating_sub(1)];
        let fewer = fewer.map(|rows| self.with_rows(rows));
        let few = [0, 1].map(|rows| Asked { rows, ..self });
        let less = [0, 1, self.most / 2, self.most.saturating_sub(1)];
        let less = less.map(|most| Asked { most, ..self });
        let shorter = [0, self.length().min(self.room)].map(|room| Asked { room, ..self });
        let plainer = fewer.into_iter().chain(few).chain(less).chain(shorter);
        plainer.filter(move |plain| {
            let size = |asked: &Asked| (asked.rows, asked.most, asked.room);
            size(plain) < size(&self)
        })
    }
}

#[cfg(test)]
mod tests {
    use super::*;

    /// Catches limits that are one off.
    #[test]
    fn numbers_are_taken_up_to_their_limits() {
        let taken = |rows, most| {
            Asked {
                rows,
                most,
                room: 0,
            }
            .taken()
        };
        assert!(taken(0, 1) && taken(4_000, 1_000_000_000));
        assert!(!taken(4_001, 1) && !taken(0, 0) && !taken(0, 1_000_000_001));
    }

    /// Catches a cut that is none, and an output that loses its distance.
    #[test]
    fn plainer_numbers_are_smaller() {
        let asked = Asked {
            rows: 6,
            most: 9,
            room: 105,
        };
        let plainer: Vec<[usize; 3]> = asked
            .plainer()
            .map(|plain| [plain.rows, plain.most, plain.room])
            .collect();
        let rows = [[0, 9, 9], [1, 9, 25], [3, 9, 57], [5, 9, 89]];
        let few = [[0, 9, 105], [1, 9, 105]];
        let amounts = [[6, 0, 105], [6, 1, 105], [6, 4, 105], [6, 8, 105]];
        let rooms = [[6, 9, 0], [6, 9, 104]];
        assert_eq!(plainer, [&rows[..], &few, &amounts, &rooms].concat());
        let none = Asked {
            rows: 0,
            most: 0,
            room: 0,
        };
        assert_eq!(none.plainer().count(), 0);
    }
}
