//! The dearest book: rows and largest amounts at their limits and past them, outputs of each length that
//! matters, 22 before 12, and random numbers.

use super::build::{dearest, Case};
use books::Random;

/// How many random calls there are.
pub const CALLS: u64 = 30;

/// The greatest amount that is taken.
const MOST: u32 = 1_000_000_000;

/// Numbers of rows that are taken, with each of their bytes at its ends.
const ROWS: [u32; 10] = [0, 1, 2, 3, 40, 255, 256, 257, 3_999, 4_000];

/// Numbers of rows that are not.
const TOO_MANY: [u32; 6] = [4_001, 4_096, 65_535, 65_536, 69_536, u32::MAX];

/// Amounts that are taken, with each of their bytes at its ends.
const AMOUNTS: [u32; 10] = [
    1,
    255,
    256,
    65_535,
    65_536,
    16_777_215,
    16_777_216,
    305_419_896,
    MOST - 1,
    MOST,
];

/// Amounts that are not.
const NO_AMOUNTS: [u32; 4] = [0, MOST + 1, 1 << 31, u32::MAX];

/// The length of the book of so many rows.
fn length(rows: u32) -> usize {
    8 + 16 * rows as usize
}

/// Every number of rows and every amount that is taken, with just enough room or a little more.
fn taken() -> Vec<Case> {
    let rows = ROWS.iter().zip(AMOUNTS.iter().rev());
    let by_rows = rows.map(|(rows, most)| dearest(*rows, *most, length(*rows)));
    let by_amount = AMOUNTS.map(|most| dearest(2, most, length(2) + 5));
    by_rows.chain(by_amount).collect()
}

/// Outputs of few bytes, for no rows, one and two, and outputs around 4,000 rows.
fn rooms() -> Vec<Case> {
    let few = [0, 7, 8, 9, 23, 24, 25, 39, 40];
    let full = [0, 8, 63_992, 64_007, 64_008, 64_009, 65_536];
    let few = few
        .iter()
        .flat_map(|room| [0, 1, 2].map(|rows| dearest(rows, 77, *room)));
    few.chain(full.map(|room| dearest(4_000, MOST, room)))
        .collect()
}

/// Refused with 22: for the rows, the amount and both, without room and with it.
fn refused() -> Vec<Case> {
    let mut cases = Vec::new();
    for rows in TOO_MANY {
        cases.extend([(1, 0), (MOST, 65_536)].map(|(most, room)| dearest(rows, most, room)));
    }
    for most in NO_AMOUNTS {
        let given = [(0, 0), (0, 8), (1, 24), (4_000, 64_007), (4_001, 65_536)];
        cases.extend(given.map(|(rows, room)| dearest(rows, most, room)));
    }
    cases
}

/// Random numbers of a seed, one time in six past a limit, into an output next to the book's length.
fn random(seed: u64) -> Vec<Case> {
    let call = |number: u64| {
        let mut random = Random::of_case(seed, 8_000 + number);
        let rows = match random.below(12) {
            0 => random.pick(&TOO_MANY),
            1 => 1 + random.below(4_000) as u32,
            _ => random.below(60) as u32,
        };
        let most = match random.below(12) {
            0 => random.pick(&NO_AMOUNTS),
            1..=4 => 1 + random.below(1_000) as u32,
            _ => 1 + random.below(MOST.into()) as u32,
        };
        let beside = length(rows).min(65_000) + random.below(30) as usize;
        let less = if random.once_in(4) { 30 } else { 0 };
        dearest(rows, most, beside.saturating_sub(less))
    };
    (0..CALLS).map(call).collect()
}

/// All of them.
pub fn cases(seed: u64) -> Vec<Case> {
    [taken(), rooms(), refused(), random(seed)].concat()
}

#[cfg(test)]
mod tests {
    use super::super::build::Call;
    use super::*;

    /// The refusal of a call, by its three numbers.
    fn number(case: &Case) -> u64 {
        match case.call {
            Call::Dearest { room, rows, most } => {
                let mut out = vec![0; room as usize];
                let answer = second::dearest(rows.into(), most.into(), &mut out);
                answer.refusal.number
            }
            _ => panic!("another call"),
        }
    }

    /// Catches calls that are refused for another reason than they are stored for.
    #[test]
    fn refusals_by_hand() {
        assert!(taken().iter().all(|case| number(case) == 0));
        assert!(refused().iter().all(|case| number(case) == 22));
        let numbers: Vec<u64> = rooms().iter().map(number).collect();
        let few = [
            [12, 12, 12], // 0 bytes
            [12, 12, 12], // 7
            [0, 12, 12],  // 8
            [0, 12, 12],  // 9
            [0, 12, 12],  // 23
            [0, 0, 12],   // 24
            [0, 0, 12],   // 25
            [0, 0, 12],   // 39
            [0, 0, 0],    // 40
        ];
        let full = [12, 12, 12, 12, 0, 0, 0];
        assert_eq!(numbers, [&few.concat()[..], &full].concat());
    }

    /// Catches random calls that are all accepted, or all refused for one reason.
    #[test]
    fn random_calls_are_of_all_sorts() {
        let of = |wanted: u64| {
            random(1)
                .iter()
                .filter(|case| number(case) == wanted)
                .count()
        };
        let counts = [0, 12, 22].map(of);
        assert!(counts.iter().all(|count| *count > 1), "{counts:?}");
        assert!(counts[0] > 10, "{counts:?}");
    }

    /// Catches numbers of rows that are cut to 16 bits: 69,536 and 65,536 become 4,000 and 0.
    #[test]
    fn rows_that_are_taken_by_their_low_bytes_are_among_them() {
        assert!(TOO_MANY.iter().any(|rows| *rows as u16 == 4_000));
        assert!(TOO_MANY.iter().any(|rows| *rows as u16 == 0));
    }
}
