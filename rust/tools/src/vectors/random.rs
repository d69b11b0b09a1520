//! Random books of a seed, as they are and damaged, and their joins.

use super::build::{all_calls, join, Case};
use books::damage::damage;
use books::generate::{book, Shape};
use books::Random;

/// How many random books there are.
pub const BOOKS: u64 = 80;

/// The bytes of a random book, damaged one time in four.
fn bytes(random: &mut Random) -> Vec<u8> {
    let rows = 1 + random.below(12) as usize;
    let shape = Shape::new(random, rows);
    let mut bytes = book(random, &shape).encode().expect("few rows");
    if random.once_in(4) {
        damage(random, &mut bytes);
    }
    bytes
}

/// All of them, each joined with the next.
pub fn cases(seed: u64) -> Vec<Case> {
    let mut cases = Vec::new();
    let mut before: Vec<u8> = vec![0; 8];
    for number in 0..BOOKS {
        let mut random = Random::of_case(seed, number);
        let next = bytes(&mut random);
        let group = next.get(8).map_or(0, |group| u16::from(*group));
        cases.extend(all_calls(&next, &[group]));
        let exact = (before.len() + next.len()).saturating_sub(8);
        let room = exact + random.below(3) as usize;
        cases.push(join(&before, &next, room.saturating_sub(1)));
        before = next;
    }
    cases
}
