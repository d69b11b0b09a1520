//! The claims about netting (document 02, P1 and P7) on one case, by the library's own figures: the
//! netted book is accepted and stays as it is, takes at most so many comparisons, costs at most what
//! the book costs, and of two books joined at most what the two cost netted.

use super::case::Case;
use super::laws::{dearer, joined, report, Report, FIGURES};
use super::premises::{at_most_two, zones};
use crate::calls::Calls;
use crate::net::bound;

/// A netted book, the rows of the book that it was, and the comparisons.
struct Netted {
    book: Vec<u8>,
    rows: usize,
    comparisons: u64,
}

/// The netted book, where there is one, with all the room that it can want.
fn netted(calls: &dyn Calls, book: &[u8]) -> Option<Netted> {
    let (mut out, mut result) = (vec![0; book.len()], [0; 5]);
    calls.net(book, &mut out, &mut result);
    match result[0] {
        0 => Some(Netted {
            book: out.get(..result[3] as usize)?.to_vec(),
            rows: book.len().saturating_sub(8) / 16,
            comparisons: result[4],
        }),
        _ => None,
    }
}

/// More comparisons than there are pairs of rows.
fn beyond(name: &str, netted: &Netted) -> Option<String> {
    let (rows, made, most) = (netted.rows, netted.comparisons, bound(netted.rows));
    (made > most).then(|| format!("{name} of {rows} rows takes {made} comparisons, over {most}"))
}

/// The netted book is accepted, and netted again it is the same.
fn stays(calls: &dyn Calls, once: &Netted) -> Option<String> {
    let mut check = [0; 3];
    calls.check(&once.book, &mut check);
    if check[0] != 0 {
        return Some(format!("the netted book is refused with {}", check[0]));
    }
    match netted(calls, &once.book) {
        Some(again) if again.book == once.book => beyond("the netted book", &again),
        _ => Some("netted again, the netted book changes".into()),
    }
}

/// A charge or total of the netted book that is more than the book's own.
fn raised(name: &str, entry: usize, netted: &Report, own: &Report) -> Option<String> {
    let (netted, own) = (netted[entry], own[entry]);
    (netted > own).then(|| format!("netted, {name} is {netted}, more than {own}"))
}

/// No charge of a netted book is above the book's own. Under a refused table none is charged.
fn lowers(calls: &dyn Calls, case: &Case, once: &Netted) -> Option<String> {
    let own = report(calls, case, &case.a);
    if own[0] != 0 {
        return None;
    }
    let after = report(calls, case, &once.book);
    let mut figures = (3..).zip(FIGURES);
    figures.find_map(|(entry, name)| raised(name, entry, &after, &own))
}

/// What of the first book is broken.
fn of_first(calls: &dyn Calls, case: &Case, a: &Netted) -> Option<String> {
    beyond("book A", a)
        .or_else(|| stays(calls, a))
        .or_else(|| lowers(calls, case, a))
}

/// A charge or total of a netted join that is more than those of the two netted books together.
fn dearer_netted(calls: &dyn Calls, case: &Case, three: [&Netted; 3]) -> Option<String> {
    let reports = three.map(|netted| report(calls, case, &netted.book));
    if [18, 19].contains(&reports[1][0]) {
        return None;
    }
    let mut figures = (3..).zip(FIGURES);
    let three = reports.each_ref().map(|report| &report[..]);
    figures.find_map(|(entry, name)| dearer(name, entry, three))
}

/// What is broken of two netted books and of their netted join, where all three can be netted; its
/// cost where the join, before it is netted, uses at most two zones in each currency.
fn joining(calls: &dyn Calls, case: &Case, a: &Netted, b: &Netted) -> Option<String> {
    let joined = joined(calls, case)?;
    let whole = netted(calls, &joined)?;
    beyond("the joined book", &whole).or_else(|| {
        let premise = zones(&joined).iter().all(at_most_two);
        premise.then(|| dearer_netted(calls, case, [&whole, a, b]))?
    })
}

/// What of them a case breaks, in words.
pub fn broken(calls: &dyn Calls, case: &Case) -> Option<String> {
    let [a, b] = [&case.a, &case.b].map(|book| netted(calls, book));
    let of_first = a.as_ref().and_then(|a| of_first(calls, case, a));
    let told = of_first
        .or_else(|| b.as_ref().and_then(|b| beyond("book B", b)))
        .or_else(|| joining(calls, case, a.as_ref()?, b.as_ref()?))?;
    Some(format!("netting: {told}"))
}
