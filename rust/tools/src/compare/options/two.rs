//! The claims about two option tables: the books that they give can be joined and then cost at most the
//! two, and gamma and vega of both tables put together are at most those of the two.

use super::super::laws::{dearer, FIGURES};
use super::laws::{refused, Answer, GREEKS};
use super::one::report;
use super::OptionTables;
use crate::calls::Calls;

/// The book that join makes of two, or nothing where it refuses.
fn joined(calls: &dyn Calls, books: [&[u8]; 2]) -> Option<Vec<u8>> {
    let [a, b] = books;
    let (mut out, mut result) = (vec![0; (a.len() + b.len()).saturating_sub(8)], [0; 4]);
    calls.join(a, b, &mut out, &mut result);
    (result[0] == 0).then_some(out)
}

/// The books of two tables are joined, and the joined one costs at most the two.
fn joining(calls: &dyn Calls, answers: [&Answer; 2]) -> Option<String> {
    let books = answers.map(|answer| answer.book());
    let Some(joined) = joined(calls, books) else {
        return Some("the books of two tables cannot be joined".into());
    };
    let whole = report(calls, &joined);
    if whole[0] != 0 {
        return Some(format!("the joined book is refused with {}", whole[0]));
    }
    let [a, b] = answers.map(|answer| answer.charges());
    let mut figures = FIGURES.iter().enumerate();
    figures.find_map(|(at, name)| dearer(name, at, [&whole[3..], &a, &b]))
}

/// The options of two tables together have at most the gamma and the vega of the two.
fn together(calls: &dyn Calls, table: &[u8], answers: [&Answer; 2]) -> Option<String> {
    let whole = Answer::of(calls, table);
    if let Some(why) = refused(&whole, table) {
        return Some(why);
    }
    let [whole, a, b] = [&whole, answers[0], answers[1]].map(Answer::greeks);
    let mut greeks = GREEKS.iter().enumerate();
    greeks.find_map(|(at, name)| {
        let [whole, a, b] = [whole, a, b].map(|greeks| greeks[at]);
        (whole > a.saturating_add(b))
            .then(|| format!("together, {name} is {whole}, more than {a} and {b}"))
    })
}

/// What of them two tables break, in words, where both are accepted.
pub fn broken(calls: &dyn Calls, tables: &OptionTables, answers: [&Answer; 2]) -> Option<String> {
    if answers.iter().any(|answer| answer.refusal() != [0, 0]) {
        return None;
    }
    let table = tables.together()?;
    joining(calls, answers).or_else(|| together(calls, &table, answers))
}
