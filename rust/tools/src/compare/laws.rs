//! Demand 3, the charges of each currency, the ladders, the parts, the small bank, netting,
//! offsetting, both in one call, the shortest file, the dearest book, options and the least trade on one case, by the library's
//! own figures: lists and ladders that add up, order, mirror and joining, all books of the case under its
//! one table.

use super::case::Case;
use super::check::unequal;
use super::premises::{at_most_two, zones, Zones};
use super::{both_laws, dearest_laws, ladders, net_laws, offset_laws, options};
use super::{part_laws, shortest_laws, small_laws, trade};
use crate::calls::Calls;
use books::{Book, Random, Row};
use second::GROUPS;

/// The entries of a report.
pub type Report = [u64; 75];

/// The entries of a call on a joined book and on its two parts.
type Three<'a> = [&'a [u64]; 3];

/// The names of the charges and the total, in the report's order, from entry 3 on.
pub const FIGURES: [&str; 7] = [
    "interest specific",
    "interest general",
    "equity specific",
    "equity general",
    "foreign exchange",
    "commodity",
    "total",
];

/// A list of the charges of each currency: the entry of the figure that it splits, and its
/// own first entry.
struct List {
    name: &'static str,
    splits: usize,
    first: usize,
}

const LISTS: [List; 2] = [
    List {
        name: "interest specific",
        splits: 3,
        first: 11,
    },
    List {
        name: "interest general",
        splits: 4,
        first: 43,
    },
];

/// The report of a book under the table of a case.
pub fn report(calls: &dyn Calls, case: &Case, book: &[u8]) -> Report {
    let mut out = [0; 75];
    calls.charge(book, &case.table, &mut out);
    out
}

/// Each list of a report sums to the figure that it splits, of a refused book too.
fn adding_up(calls: &dyn Calls, case: &Case) -> Option<String> {
    let report = report(calls, case, &case.a);
    LISTS.iter().find_map(|list| {
        let entries = &report[list.first..list.first + GROUPS];
        let sum: u128 = entries.iter().map(|entry| u128::from(*entry)).sum();
        let (name, figure) = (list.name, report[list.splits]);
        let unequal = sum != u128::from(figure);
        unequal.then(|| format!("{name} is {figure}, by currencies {sum}"))
    })
}

/// A book with the rows of each class in another order.
fn reordered(book: &Book, order: u64) -> Book {
    let mut book = book.clone();
    let mut random = Random::new(order);
    book.classes
        .iter_mut()
        .for_each(|rows| random.shuffle(rows));
    book
}

/// A book with long and short exchanged in every row.
fn mirrored(book: &Book) -> Book {
    let mirror = |rows: &Vec<Row>| rows.iter().map(|row| row.mirrored()).collect();
    Book {
        classes: book.classes.each_ref().map(mirror),
    }
}

/// The first book of a case mirrored, reordered and mirrored, and reordered, each with the entries
/// of a call in which it differs from the book as it is.
pub fn changed<const N: usize>(
    case: &Case,
    expected: &[u64; N],
    call: impl Fn(&[u8]) -> [u64; N],
) -> Option<String> {
    let book = Book::decode(&case.a)?;
    let other = reordered(&book, case.order);
    let variants = [
        ("mirrored", mirrored(&book)),
        ("reordered and mirrored", mirrored(&other)),
        ("reordered", other),
    ];
    variants.iter().find_map(|(name, variant)| {
        let entries = unequal(&call(&variant.encode()?), expected)?;
        Some(format!("{name} and as it is: {entries}"))
    })
}

/// Reordered and mirrored books have the same report.
fn order_and_mirror(calls: &dyn Calls, case: &Case) -> Option<String> {
    let expected = report(calls, case, &case.a);
    match expected[0] {
        0 => changed(case, &expected, |book| report(calls, case, book)),
        _ => None,
    }
}

/// An entry of a joined book that is more than those of the two together.
pub fn dearer(name: &str, entry: usize, results: Three) -> Option<String> {
    let [whole, a, b] = results.map(|result| result[entry]);
    (whole > a + b).then(|| format!("joined, {name} is {whole}, more than {a} and {b} together"))
}

/// A currency that uses at most two zones in the joined book, whatever the others use, and
/// costs more there than in the two.
fn dearer_currency(zones: &Zones, reports: Three) -> Option<String> {
    let mut currencies = (0..GROUPS).filter(|group| at_most_two(&zones[*group]));
    currencies.find_map(|group| {
        LISTS.iter().find_map(|list| {
            let name = format!("{} of currency {group}", list.name);
            dearer(&name, list.first + group, reports)
        })
    })
}

/// A charge or total that is more than those of the two, with at most two zones used in each
/// currency.
fn dearer_figure(zones: &Zones, reports: Three) -> Option<String> {
    let mut figures = (3..).zip(FIGURES);
    match zones.iter().all(at_most_two) {
        true => figures.find_map(|(entry, name)| dearer(name, entry, reports)),
        false => None,
    }
}

/// The joined book of a case, if join accepts.
pub fn joined(calls: &dyn Calls, case: &Case) -> Option<Vec<u8>> {
    let mut joined = vec![0; (case.a.len() + case.b.len()).saturating_sub(8)];
    let mut result = [0; 4];
    calls.join(&case.a, &case.b, &mut joined, &mut result);
    (result[0] == 0).then_some(joined)
}

/// A joined book has the rows of its parts and, under the zone premise, costs at most these.
fn joining(calls: &dyn Calls, case: &Case) -> Option<String> {
    let joined = joined(calls, case)?;
    let (a, b) = (report(calls, case, &case.a), report(calls, case, &case.b));
    // Under a refused table nothing is charged.
    if [18, 19].contains(&a[0]) {
        return None;
    }
    let whole = report(calls, case, &joined);
    if whole[0] != 0 {
        return Some(format!("the joined book is refused with {}", whole[0]));
    }
    if whole[10] != a[10] + b[10] {
        let [whole, a, b] = [whole, a, b].map(|report| report[10]);
        return Some(format!("joined, {whole} rows are taken, not {a} and {b}"));
    }
    let (zones, reports): (_, Three) = (zones(&joined), [&whole, &a, &b]);
    dearer_currency(&zones, reports).or_else(|| dearer_figure(&zones, reports))
}

/// What of them a case breaks, in words.
pub fn broken(calls: &dyn Calls, case: &Case) -> Option<String> {
    adding_up(calls, case)
        .or_else(|| ladders::broken(calls, case))
        .or_else(|| order_and_mirror(calls, case))
        .or_else(|| joining(calls, case))
        .or_else(|| part_laws::broken(calls, case))
        .or_else(|| small_laws::broken(calls, case))
        .or_else(|| net_laws::broken(calls, case))
        .or_else(|| offset_laws::broken(calls, case))
        .or_else(|| both_laws::broken(calls, case))
        .or_else(|| shortest_laws::broken(calls, case))
        .or_else(|| dearest_laws::broken(calls, case))
        .or_else(|| options::broken(calls, case))
        .or_else(|| trade::broken(calls, case))
}
