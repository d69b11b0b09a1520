//! Random least trades of a seed: places in random books under random tables, with limits that an amount reaches, or
//! nearly.

use super::build::Case;
use super::least_trade_build::Place;
use books::damage::damage;
use books::generate::{interest_rows, Shape};
use books::tables::random::{accepted, broken, WAYS};
use books::Random;

/// How many random calls there are.
pub const CALLS: u64 = 30;

/// An amount, mostly small.
fn amount(random: &mut Random) -> u64 {
    match random.below(8) {
        0 => 0,
        1 => 1_000_000,
        2 => random.below(100_000),
        _ => random.below(2_000),
    }
}

/// A limit: what an amount costs, or a mil beside it.
fn limit(random: &mut Random, place: &Place) -> u64 {
    let cost = place.charge(amount(random));
    match random.below(4) {
        0 => cost.saturating_sub(1),
        1 => cost + 1,
        _ => cost,
    }
}

/// The side of a place on which 50 units cost less, three times out of four.
fn helpful(random: &mut Random, place: Place) -> Place {
    let other = Place {
        side: 1 - place.side,
        ..place.clone()
    };
    match place.charge(50) > other.charge(50) && !random.once_in(4) {
        true => other,
        false => place,
    }
}

/// A place in a random book under document 01's table or a random one. Nothing of it is refused.
fn place(random: &mut Random) -> Place {
    let shape = Shape::of_one_group(random, 6);
    let book = interest_rows(random, &shape).encode().expect("few rows");
    let (band, side) = (1 + random.below(14) as u16, random.below(2) as u16);
    let place = Place::new(&book, book[8].into(), band, side);
    let place = match random.once_in(3) {
        true => place,
        false => place.by(&accepted(random).encode()),
    };
    helpful(random, place)
}

/// Makes one thing of a place wrong, or the book damaged.
fn spoil(random: &mut Random, place: &mut Place) {
    match random.below(6) {
        0 => place.group = random.pick(&[32, 256]),
        1 => place.band = 15 + random.below(300) as u16,
        2 => place.side = random.pick(&[2, 256]),
        3 => {
            let way = random.below(WAYS as u64) as usize;
            place.table = broken(random, way).encode();
        }
        _ => damage(random, &mut place.book),
    }
}

/// A random call, which one time in four has something wrong.
fn call(seed: u64, number: u64) -> Case {
    let mut random = Random::of_case(seed, 10_000 + number);
    let mut place = place(&mut random);
    let limit = limit(&mut random, &place);
    if random.once_in(4) {
        spoil(&mut random, &mut place);
    }
    place.case(limit)
}

/// All of them.
pub fn cases(seed: u64) -> Vec<Case> {
    (0..CALLS).map(|number| call(seed, number)).collect()
}

#[cfg(test)]
mod tests {
    use super::super::least_trade_build::answer;
    use super::*;

    /// Catches random calls that are all within their limit as they stand, all none, or all refused.
    #[test]
    fn random_calls_are_of_all_sorts() {
        let answers: Vec<[u64; 4]> = cases(1).iter().map(answer).collect();
        let count = |wanted: fn(&[u64; 4]) -> bool| answers.iter().filter(|of| wanted(of)).count();
        let sorts = [
            count(|of| of[0] == 0 && of[2] == 0),
            count(|of| of[0] == 0 && of[2] == 1 && of[3] == 0),
            count(|of| of[3] > 0),
            count(|of| of[0] > 0),
        ];
        assert!(sorts.iter().all(|count| *count > 2), "{sorts:?}");
        assert!(sorts[2] > 8, "{sorts:?}");
    }
}
