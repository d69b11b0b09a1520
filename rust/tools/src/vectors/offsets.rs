//! Offsetting: chains in which the first fit matters, other rows between legs, outputs around the
//! written length, books of 4,000 rows, and random books; pairs at the limits are in
//! `offset_limits.rs`.

use super::build::{around, book, clean, offset, only, row, Case};
use super::offset_limits::{limits, others};
use super::worked;
use books::damage::damage;
use books::legs::Legs;
use books::{Random, Row};

/// How many random books there are.
pub const BOOKS: u64 = 60;

/// A leg of currency 7, coupon 800.
pub fn leg(days: u16, net: i64) -> Row {
    row(7, 1, days, 800, net)
}

/// Legs by days and nets, each with a number of its own, so that it is seen which of them stay.
fn numbered(legs: &[(u16, i64)]) -> Vec<u8> {
    let numbered = legs.iter().zip(1..);
    let rows: Vec<Row> = numbered
        .map(|((days, net), issue)| leg(*days, *net).with_issue(issue))
        .collect();
    only(0, &rows)
}

/// Chains: a leg that fits two later ones, two that want the same later one, one that is gone when
/// its turn comes, and one that fits none but the second of those that fit each other.
fn chains() -> Vec<Vec<u8>> {
    [
        &[(900, 5), (910, -5), (905, -5)][..],
        &[(900, 5), (905, 5), (910, -5)],
        &[(360, 5), (367, -5), (370, 5)],
        &[(370, 5), (367, -5), (360, 5)],
        &[(900, 5), (930, -5), (960, 5), (990, -5)],
        &[(900, 5), (930, -5), (960, 5)],
        &[(900, 5), (960, 5), (930, -5)],
        &[(900, 5), (900, 5), (900, -5), (900, -5), (900, -5)],
        &[(900, -5), (900, 5), (900, 5), (900, -5), (900, 5)],
        &[(900, 5), (960, -5), (931, -5), (930, -5), (929, -5)],
        &[(900, 5), (900, 6), (900, -6), (900, -5)],
    ]
    .map(numbered)
    .to_vec()
}

/// Four legs of which some pairs fit, in every order.
fn orders() -> Vec<Vec<u8>> {
    let legs = [(360, 5), (367, -5), (370, 5), (391, -5)];
    let mut books = Vec::new();
    for mix in 0..24 {
        let mut left = legs.to_vec();
        let picks = [mix % 4, mix / 4 % 3, mix / 12, 0];
        let rows: Vec<(u16, i64)> = picks.iter().map(|pick| left.remove(*pick)).collect();
        books.push(numbered(&rows));
    }
    books
}

/// Legs between rows of other kinds, before rows of all other classes, which keep their order.
fn mixed() -> Vec<Vec<u8>> {
    let other = |kind: u8, days: u16, net: i64| leg(days, net).with_kind(kind);
    let interest = [
        other(3, 900, 5),
        leg(900, 5),
        other(2, 900, -5),
        leg(60, 9),
        row(7, 4, 90, 900, 5),
        leg(905, -5),
        other(2, 905, 5),
        leg(61, -9),
        leg(60, -9),
    ];
    let rest = [1, 2, 3].map(|class| {
        let row = clean(class);
        [row.with_issue(2), row.mirrored(), row.with_issue(1)]
    });
    let [equity, exchange, commodity] = rest.each_ref().map(|body| &body[..]);
    vec![
        book([&interest, equity, exchange, commodity]),
        book([&[], equity, &[], commodity]),
        book([&interest[1..2], &[], exchange, commodity]),
    ]
}

/// Books of 4,000 rows in runs that store small: all pair off, one does not, none does for its side
/// or its coupon, runs of both sides, and 1,000 rows of each class.
fn full_books() -> Vec<Vec<u8>> {
    let runs = |runs: &[(usize, Row)]| -> Vec<u8> {
        let rows: Vec<Row> = runs
            .iter()
            .flat_map(|(count, row)| vec![*row; *count])
            .collect();
        only(0, &rows)
    };
    let (long, short) = (leg(900, 5), leg(910, -5));
    let hundreds: Vec<(usize, Row)> = (0..40)
        .map(|at| (100, [long, short, short.with_sides(0, 4)][at % 3]))
        .collect();
    let quarters = [0, 1, 2, 3].map(|class| match class {
        0 => [vec![long; 400], vec![short; 600]].concat(),
        _ => vec![clean(class); 1_000],
    });
    vec![
        runs(&[(2_000, long), (2_000, short)]),
        runs(&[(1_999, short), (2_001, long)]),
        runs(&[(4_000, long)]),
        runs(&[(2_000, long), (2_000, short.with_coupon(816))]),
        runs(&hundreds),
        book(quarters.each_ref().map(|body| &body[..])),
    ]
}

/// Legs of as many amounts, each with its other leg in the second half of the book.
fn many_amounts() -> Vec<u8> {
    let legs = |side: i64| (1..=150).map(move |amount| leg(900, side * 300 * amount));
    let rows: Vec<Row> = legs(1).chain(legs(-1).rev()).collect();
    only(0, &rows)
}

/// Random books of a seed, one in four damaged.
fn random(seed: u64) -> Vec<Vec<u8>> {
    let random_book = |number: u64| {
        let mut random = Random::of_case(seed, 5_000 + number);
        let rows = 1 + random.below(14) as usize;
        let book = Legs::new(&mut random).book(&mut random, rows);
        let mut bytes = book.encode().expect("few rows");
        if random.once_in(4) {
            damage(&mut random, &mut bytes);
        }
        bytes
    };
    (0..BOOKS).map(random_book).collect()
}

/// A book offset into an output of every length that matters.
fn rooms(book: &[u8]) -> Vec<Case> {
    let written = second::offset_book(book).map_or(book.len(), |written| written.len());
    around(book, written, offset)
}

/// All of them: some with outputs of many lengths, the others with one.
pub fn cases(seed: u64) -> Vec<Case> {
    let short = [worked::examples(), chains(), mixed(), vec![vec![0; 8]]].concat();
    let mut cases: Vec<Case> = short.iter().flat_map(|book| rooms(book)).collect();
    let others = [limits(), others(), orders(), random(seed)].concat();
    cases.extend(others.iter().map(|book| offset(book, book.len() + 5)));
    for book in full_books() {
        cases.extend([65_536, 8].map(|room| offset(&book, room)));
    }
    cases.push(offset(&many_amounts(), 65_536));
    cases
}

#[cfg(test)]
pub mod tests {
    use super::*;

    /// How many rows are left of each of some books.
    pub fn left(books: &[Vec<u8>]) -> Vec<usize> {
        let written = books.iter().map(|book| second::offset_book(book).unwrap());
        written.map(|book| (book.len() - 8) / 16).collect()
    }

    /// The issue numbers of the rows that are left.
    fn numbers(book: &[u8]) -> Vec<u8> {
        let written = second::offset_book(book).unwrap();
        written[8..].chunks(16).map(|row| row[6]).collect()
    }

    /// What stays of each chain, by hand.
    #[test]
    fn chains_by_hand() {
        let stay = chains();
        let stay: Vec<Vec<u8>> = stay.iter().map(|book| numbers(book)).collect();
        let expected: [&[u8]; 11] = [
            &[3],
            &[2],
            &[3],
            &[3],
            &[],
            &[3],
            &[2],
            &[5],
            &[5],
            &[2, 3, 5],
            &[],
        ];
        assert_eq!(stay, expected);
    }

    /// Catches orders of which none is another's: what stays differs.
    #[test]
    fn orders_leave_different_rows() {
        let different: std::collections::HashSet<Vec<u8>> = orders().into_iter().collect();
        assert_eq!(different.len(), 24);
        let left = left(&orders());
        assert!(left.contains(&0) && left.contains(&2), "{left:?}");
    }

    /// The rows of other kinds and classes stay, and one leg: that of 60 days takes the one of 61,
    /// which stands before its equal.
    #[test]
    fn mixed_books_by_hand() {
        assert_eq!(left(&mixed()), [5 + 9, 6, 7]);
        let written = second::offset_book(&mixed()[0]).unwrap();
        let last = leg(60, -9).encode();
        assert_eq!(written[8 + 4 * 16..][..16], last);
    }

    /// 4,000 rows: nothing left, two, all, all, and those of the runs and classes that have no
    /// other side.
    #[test]
    fn full_books_by_hand() {
        // 14 runs are long 5, 13 short 5, and 13 short 4, which fit none.
        assert_eq!(left(&full_books()), [0, 2, 4_000, 4_000, 1_400, 3_200]);
        assert!(full_books().iter().all(|book| book.len() == 64_008));
        assert_eq!(left(&[many_amounts()]), [0]);
    }

    /// Catches random books in which nothing or everything offsets, or that are all accepted.
    #[test]
    fn random_books_lose_some_rows() {
        let (mut shorter, mut same, mut refused) = (0, 0, 0);
        for book in random(1) {
            match second::offset_book(&book) {
                Ok(written) if written.len() < book.len() => shorter += 1,
                Ok(_) => same += 1,
                Err(_) => refused += 1,
            }
        }
        assert!(shorter > 25 && same > 5 && refused > 5);
    }
}
