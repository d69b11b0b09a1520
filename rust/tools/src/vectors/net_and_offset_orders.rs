//! Netting and then offsetting where the order matters: the two sorts of docs/ORDER.md in every order
//! of their rows, fits that netting makes and takes away, and three rows of one bond.

use super::build::only;
use super::nets::MOST;
use super::offsets::leg;
use books::Row;

/// A leg by its days, issue and net.
pub type Leg = (u16, u16, i64);

/// A row of it.
pub fn row((days, issue, net): Leg) -> Row {
    leg(days, net).with_issue(issue)
}

/// A book of legs.
pub fn legs(legs: &[Leg]) -> Vec<u8> {
    let rows: Vec<Row> = legs.iter().map(|leg| row(*leg)).collect();
    only(0, &rows)
}

/// The two sorts: a fitting pair of which one row shares its issue with a third row; two rows of
/// one issue that only together equal a third.
pub const SORTS: [[Leg; 3]; 2] = [
    [(900, 0, 100), (910, 7, -100), (910, 7, 40)],
    [(900, 0, 100), (910, 7, -60), (910, 7, -40)],
];

/// Three rows in every order.
const ORDERS: [[usize; 3]; 6] = [
    [0, 1, 2],
    [0, 2, 1],
    [1, 0, 2],
    [1, 2, 0],
    [2, 0, 1],
    [2, 1, 0],
];

/// The two sorts in every order, with either side long.
pub fn sorts() -> Vec<Vec<u8>> {
    let mut books = Vec::new();
    for sort in SORTS {
        for side in [1, -1] {
            let sort = sort.map(|(days, issue, net)| (days, issue, side * net));
            books.extend(ORDERS.map(|order| legs(&order.map(|at| sort[at]))));
        }
    }
    books
}

/// Fits that netting makes or takes away: a net on the other side, nothing left of an issue whose
/// row fits, both legs nets, the place of the first row, sums past the limit and past 32 bits.
pub fn made() -> Vec<Vec<u8>> {
    let quarter = 294_967_296;
    [
        &[(900, 0, 100), (910, 7, 20), (910, 7, -120)][..],
        &[(900, 0, 100), (910, 7, -100), (910, 7, 100)],
        &[(900, 5, 60), (910, 7, -30), (900, 5, 40), (910, 7, -70)],
        &[(905, 7, -60), (900, 0, 100), (910, 0, -100), (905, 7, -40)],
        &[(900, 0, 100), (905, 7, -60), (910, 0, -100), (905, 7, -40)],
        &[(900, 0, 100), (910, 7, -100)],
        &[(900, 7, 100), (900, 7, -100)],
        &[(900, 7, 100), (900, 7, 100), (910, 8, -200), (900, 0, -200)],
        &[(900, 1, 5), (910, 257, -5), (900, 1, 5), (910, 257, -5)],
        &[(900, 0, 5), (910, 256, -5), (910, 512, -5), (910, 256, 5)],
        &[(910, 7, -MOST), (900, 0, MOST), (910, 7, -1), (910, 7, 1)],
        &[
            (910, 7, MOST),
            (910, 7, MOST),
            (900, 0, -MOST),
            (910, 7, -MOST),
        ],
        &[
            (910, 7, MOST),
            (910, 7, MOST),
            (910, 7, MOST),
            (910, 7, MOST),
            (910, 7, quarter),
            (900, 0, -quarter),
            (910, 7, -MOST),
            (910, 7, -MOST),
            (910, 7, -MOST),
            (910, 7, -MOST),
        ],
    ]
    .map(legs)
    .to_vec()
}

/// Three rows of one bond with the numbers 0 to 2 in every order, the first long and one or both of
/// the others short: netting and offsetting may both want them.
pub fn numbers() -> Vec<Vec<u8>> {
    let mut books = Vec::new();
    for mix in 0..27 {
        let issues = [mix % 3, mix / 3 % 3, mix / 9];
        for sides in [[5, -5, 5], [5, 5, -5], [5, -5, -5]] {
            let rows = [0, 1, 2].map(|at| (900, issues[at], sides[at]));
            books.push(legs(&rows));
        }
    }
    books
}

#[cfg(test)]
pub mod tests {
    use super::*;

    /// The rows that are left of a book, with their days, issues and nets, and its comparisons.
    pub fn left(book: &[u8]) -> (Vec<Leg>, u64) {
        let mut out = vec![0; 65_536];
        let done = second::net_and_offset(book, &mut out);
        assert!(done.refusal.accepted());
        let rows = out[8..done.length as usize].chunks(16).map(|bytes| {
            let row = Row::decode(bytes.try_into().unwrap());
            let net = i64::from(row.long) - i64::from(row.short);
            (row.days, row.issue, net)
        });
        (rows.collect(), done.comparisons)
    }

    /// Catches books that are not what they are stored for: the first sort has no pair once it is
    /// netted, in whatever order, and the second is one.
    #[test]
    fn sorts_by_hand() {
        for (at, book) in sorts().iter().enumerate() {
            let (rows, comparisons) = left(book);
            let side = [1, -1][at / 6 % 2];
            let expected = match at {
                ..=11 => vec![(900, 0, 100 * side), (910, 7, -60 * side)],
                _ => vec![],
            };
            let mut rows = rows;
            rows.sort_unstable();
            assert_eq!((rows, comparisons), (expected, 1), "{at}");
        }
    }

    /// What is left of each of the made books, and its comparisons, by hand.
    #[test]
    fn made_books_by_hand() {
        let expected: [(&[Leg], u64); 13] = [
            (&[], 1),
            (&[(900, 0, 100)], 1),
            (&[], 4),
            (&[(910, 0, -100)], 1),
            (&[(910, 0, -100)], 1),
            (&[], 0),
            (&[], 1),
            (&[(900, 0, -200)], 2),
            (&[], 4),
            (&[], 2),
            (&[], 2),
            (&[], 2),
            (&[], 8),
        ];
        for (book, (rows, comparisons)) in made().iter().zip(expected) {
            assert_eq!(left(book), (rows.to_vec(), comparisons));
        }
    }
}
