//! What holds of options of other rights. With call and put exchanged in some options, long and short are
//! exchanged in their rows, but gamma and vega stay. With bought and sold exchanged in all, long and short
//! are exchanged in all rows: the charges and vega stay.

use super::laws::{refused, Answer};
use crate::calls::Calls;
use books::options::{encode, OptionRow};
use std::ops::Range;

/// The first of some figures that is another with other rights.
fn unequal(way: &str, whole: &Answer, other: &Answer, figures: Range<usize>) -> Option<String> {
    let pairs = whole.named().into_iter().zip(other.named());
    let mut pairs = pairs.skip(figures.start).take(figures.len());
    let ((name, whole), (_, other)) = pairs.find(|(one, two)| one != two)?;
    let told = format!("with {way}, {name} is {other}, and as they are {whole}");
    Some(told)
}

/// What of them an accepted table breaks, in words.
pub fn broken(calls: &dyn Calls, options: &[OptionRow], answer: &Answer) -> Option<String> {
    // Every second option, from the first on, or all; gamma and vega, or vega and the charges.
    let ways = [
        ("calls for puts", 1, 2, 0..6),
        ("bought for sold", 2, 1, 3..13),
    ];
    ways.into_iter().find_map(|(way, bit, step, figures)| {
        let mut other = options.to_vec();
        let changed = other.iter_mut().step_by(step);
        changed.for_each(|option| option.right ^= bit);
        let table = encode(&other)?;
        let other = Answer::of(calls, &table);
        refused(&other, &table).or_else(|| unequal(way, answer, &other, figures))
    })
}
