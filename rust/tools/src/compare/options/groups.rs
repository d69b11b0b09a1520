//! The claim that gamma and vega of a class are the sums over its groups: what the options of each class
//! and group come to by themselves.

use super::laws::{refused, Answer, GREEKS};
use super::underlyings::underlyings;
use crate::calls::Calls;
use books::options::{encode, OptionRow};

/// Gamma and vega of the options on one underlying alone, or what is wrong with them.
fn alone(calls: &dyn Calls, class: u8, own: &[OptionRow]) -> Result<[u64; 6], String> {
    let table = encode(own).unwrap_or_default();
    let answer = Answer::of(calls, &table);
    if let Some(why) = refused(&answer, &table) {
        return Err(why);
    }
    let greeks = answer.greeks();
    let others = (0..6).find(|at| at % 3 + 2 != usize::from(class) && greeks[*at] > 0);
    match others {
        Some(at) => Err(format!(
            "with options of class {class} alone, {} is {}",
            GREEKS[at], greeks[at]
        )),
        None => Ok(greeks),
    }
}

/// What of it an accepted table breaks, in words.
pub fn broken(calls: &dyn Calls, options: &[OptionRow], answer: &Answer) -> Option<String> {
    let mut sums = [0u64; 6];
    for ((class, _), own) in underlyings(options) {
        match alone(calls, class, &own) {
            Err(why) => return Some(why),
            Ok(greeks) => sums = std::array::from_fn(|at| greeks[at].saturating_add(sums[at])),
        }
    }
    let mut pairs = GREEKS.iter().zip(answer.greeks().into_iter().zip(sums));
    let (name, (told, sum)) = pairs.find(|(_, (told, sum))| told != sum)?;
    Some(format!("{name} is {told}, group by group {sum}"))
}
