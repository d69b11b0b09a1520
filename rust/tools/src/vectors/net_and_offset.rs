//! Netting and then offsetting: outputs around the netted and the written length, other rows between
//! legs, books of 4,000 rows, and random books; where the order matters is in
//! `net_and_offset_orders.rs`.

use super::build::{around, book, clean, net_and_offset, Case};
use super::net_and_offset_orders::{legs, made, numbers, row, sorts, Leg, SORTS};
use super::worked;
use books::damage::damage;
use books::issues::spoil;
use books::split;
use books::Random;

/// How many random books there are.
pub const BOOKS: u64 = 40;

/// Rows of other kinds and classes that are netted and do not offset, between legs that do.
fn mixed() -> Vec<Vec<u8>> {
    let of_kind = |kind: u8, leg: Leg| row(leg).with_kind(kind);
    let interest = [
        of_kind(2, (900, 3, 5)),
        row((900, 7, 3)),
        of_kind(3, (900, 0, -5)),
        of_kind(2, (900, 3, 4)),
        row((910, 0, -5)),
        of_kind(4, (90, 4, 5)),
        row((900, 7, 2)),
        of_kind(4, (90, 4, -2)),
        row((60, 9, 8)),
    ];
    let rest = [1, 2, 3].map(|class| {
        let row = clean(class);
        [row.with_issue(7), row.mirrored(), row.with_issue(7)]
    });
    let [equity, exchange, commodity] = rest.each_ref().map(|body| &body[..]);
    vec![
        book([&interest, equity, exchange, commodity]),
        book([&[], equity, &[], commodity]),
        book([&interest[1..2], &[], exchange, &[]]),
    ]
}

/// Books of 4,000 rows in runs that store small: two issues that are a pair, one issue against as
/// many rows without, 40 issues that pair off, and 1,000 rows of each class.
fn full_books() -> Vec<Vec<u8>> {
    let runs = |runs: &[(usize, Leg)]| -> Vec<u8> {
        let rows = runs.iter().flat_map(|(count, leg)| vec![*leg; *count]);
        legs(&rows.collect::<Vec<Leg>>())
    };
    let forty: Vec<(usize, Leg)> = (0..40u16)
        .map(|at| (100, (900 + at % 2, 1 + at, [7, -7][usize::from(at % 2)])))
        .collect();
    let quarters = [0, 1, 2, 3].map(|class| match class {
        0 => [vec![row((900, 5, 3)); 500], vec![row((910, 6, -3)); 500]].concat(),
        _ => vec![clean(class).with_issue(5); 1_000],
    });
    vec![
        runs(&[(2_000, (900, 5, 3)), (2_000, (910, 6, -3))]),
        runs(&[(2_000, (900, 5, 3)), (2_000, (910, 0, -6_000))]),
        runs(&forty),
        book(quarters.each_ref().map(|body| &body[..])),
    ]
}

/// Legs of as many issues, each with its other leg in the second half of the book.
fn many_issues() -> Vec<u8> {
    let half =
        |side: i64, first: u16| (1..=50).map(move |at| (900, first + at, side * i64::from(at)));
    legs(&half(1, 0).chain(half(-1, 600)).collect::<Vec<Leg>>())
}

/// Random books of a seed: one in six with a row that is unlike its issue, one in six damaged.
fn random(seed: u64) -> Vec<Vec<u8>> {
    let random_book = |number: u64| {
        let mut random = Random::of_case(seed, 6_000 + number);
        let rows = 2 + random.below(8) as usize;
        let mut book = split::book(&mut random, rows);
        if random.once_in(6) {
            spoil(&mut random, &mut book);
        }
        let mut bytes = book.encode().expect("few rows");
        if random.once_in(6) {
            damage(&mut random, &mut bytes);
        }
        bytes
    };
    (0..BOOKS).map(random_book).collect()
}

/// A book into an output of every length that matters: around what is written, and around the
/// netted book, which the call does not write.
fn rooms(book: &[u8]) -> Vec<Case> {
    let written = second::net_and_offset_book(book).expect("a book that can be netted");
    let netted = second::netted(book).expect("the same");
    let mut cases = around(book, written.len(), net_and_offset);
    if netted.len() > written.len() + 1 {
        let between = [netted.len() - 1, netted.len(), netted.len() + 1];
        cases.extend(between.map(|room| net_and_offset(book, room)));
    }
    cases
}

/// All of them: some with outputs of many lengths, the others with one.
pub fn cases(seed: u64) -> Vec<Case> {
    let made = made();
    let (first, rest) = made.split_at(4);
    let short = [&SORTS.map(|sort| legs(&sort))[..], first, &mixed()].concat();
    let mut cases: Vec<Case> = short.iter().flat_map(|book| rooms(book)).collect();
    let others = [worked::examples(), sorts(), numbers(), random(seed)].concat();
    let others = [rest, &others].concat();
    cases.extend(
        others
            .iter()
            .map(|book| net_and_offset(book, book.len() + 5)),
    );
    for book in full_books() {
        cases.extend([65_536, 7].map(|room| net_and_offset(&book, room)));
    }
    cases.push(net_and_offset(&many_issues(), 65_536));
    cases
}

#[cfg(test)]
mod tests {
    use super::super::net_and_offset_orders::tests::left;
    use super::*;

    /// 4,000 rows: a pair of two nets, a net of 6,000 against the first of 2,000 rows, 40 nets in 20
    /// pairs, and the nets of the other three classes. A later row of the only issue takes one
    /// comparison, and one of the second issue two.
    #[test]
    fn full_books_by_hand() {
        let books = full_books();
        assert!(books.iter().all(|book| book.len() == 64_008));
        let counts: Vec<(usize, u64)> = books
            .iter()
            .map(|book| left(book))
            .map(|(rows, comparisons)| (rows.len(), comparisons))
            .collect();
        // Issue j of 40, from 0: its first row takes j and the others j + 1 each.
        let forty: u64 = (0..40).map(|j| j + 99 * (j + 1)).sum();
        let classes = 499 + (1 + 499 * 2) + 3 * 999;
        let expected = [
            (0, 1_999 + 1 + 1_999 * 2),
            (1_999, 1_999),
            (0, forty),
            (3, classes),
        ];
        assert_eq!(counts, expected);
        assert_eq!(left(&many_issues()), (vec![], 4_950));
    }

    /// Catches mixed books in which a row of another kind or class offsets, or is not netted.
    #[test]
    fn mixed_books_by_hand() {
        let (rows, comparisons) = left(&mixed()[0]);
        let interest = [(900, 3, 9), (900, 0, -5), (90, 4, 3), (60, 9, 8)];
        assert_eq!(rows[..4], interest);
        // Issues 3, 7, 3, 4, 7, 4 and 9 of interest, and a pair in each other class.
        assert_eq!(
            (rows.len(), comparisons),
            (4 + 3 * 2, 1 + 1 + 2 + 2 + 3 + 3 + 3)
        );
    }

    /// Catches random books that the order does not matter to, or that are all accepted.
    #[test]
    fn random_books_are_of_all_sorts() {
        let (mut refused, mut shorter, mut other) = (0, 0, 0);
        for book in random(1) {
            let netted = second::netted(&book);
            match (&netted, second::net_and_offset_book(&book)) {
                (Ok(netted), Ok(left)) => {
                    shorter += usize::from(left.len() < netted.len());
                    let first = second::offset_book(&book).unwrap();
                    other += usize::from(second::netted(&first) != Ok(left));
                }
                _ => refused += 1,
            }
        }
        assert!(
            refused > 5 && shorter > 12 && other > 10,
            "{refused} {shorter} {other}"
        );
    }
}
