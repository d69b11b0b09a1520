//! The comparisons of netting: rows of some issues in each order, numbers 0 between them, nets of
//! zero, classes apart, and as many as there can be.

use super::build::{book, clean, net, only, Case};
use super::nets::bond;
use books::Row;

/// How many rows the book has that takes all comparisons: a row of each issue stores as it is.
const ALL_APART: u16 = 1_000;

/// Bonds of these issues.
fn bonds(issues: &[u16]) -> Vec<u8> {
    let rows: Vec<Row> = issues.iter().map(|issue| bond(*issue, 2)).collect();
    only(0, &rows)
}

/// Three rows of numbers 0 to 3 in every order, and four of three issues.
fn orders() -> Vec<Vec<u8>> {
    let digit = |mix: u16, at: u32| mix / 4u16.pow(at) % 4;
    let three = |mix: u16| [0, 1, 2].map(|at| digit(mix, at));
    let mut books: Vec<Vec<u8>> = (0..64).map(|mix| bonds(&three(mix))).collect();
    books.extend((1..4).map(|last| bonds(&[1, 2, 3, last])));
    books
}

/// Issues that net to zero, on the way or in the end, before rows of others.
fn zeros() -> Vec<Vec<u8>> {
    let lists: [&[(u16, i64)]; 4] = [
        &[(5, 3), (5, -3), (6, 1), (6, 1)],
        &[(5, 3), (5, -3), (6, 1), (5, 3), (6, 1)],
        &[(5, 3), (6, 1), (5, -3), (6, -1), (7, 1)],
        &[(5, 3), (5, -3), (5, 3), (5, -3), (6, 1)],
    ];
    let rows = |list: &[(u16, i64)]| -> Vec<Row> {
        let rows = list.iter().map(|(issue, net)| bond(*issue, *net));
        rows.collect()
    };
    lists.map(|list| only(0, &rows(list))).to_vec()
}

/// The same numbers in all classes, some of them with 0 between.
fn classes() -> Vec<Vec<u8>> {
    let body = |class: usize, issues: &[u16]| -> Vec<Row> {
        let issues = issues.iter();
        issues
            .map(|issue| clean(class).with_issue(*issue))
            .collect()
    };
    let lists: [[&[u16]; 4]; 3] = [
        [&[5], &[5], &[5], &[5]],
        [&[5, 6], &[6, 5], &[5, 6, 5], &[6]],
        [&[5, 0, 6, 7], &[0, 7, 0, 7], &[], &[7, 6, 5, 5]],
    ];
    let book_of = |lists: [&[u16]; 4]| {
        let bodies = [0, 1, 2, 3].map(|class| body(class, lists[class]));
        book(bodies.each_ref().map(|body| &body[..]))
    };
    lists.map(book_of).to_vec()
}

/// Rows of as many issues, which take every comparison.
fn all_apart() -> Vec<u8> {
    let issues: Vec<u16> = (1..=ALL_APART).map(|at| at * 61).collect();
    bonds(&issues)
}

/// All of them: with room, and some without.
pub fn cases() -> Vec<Case> {
    let books = [orders(), zeros(), classes(), vec![all_apart()]].concat();
    let mut cases: Vec<Case> = books.iter().map(|book| net(book, book.len())).collect();
    let short = [zeros(), classes()].concat();
    cases.extend(short.iter().map(|book| net(book, 7)));
    cases
}

#[cfg(test)]
mod tests {
    use super::super::answers::lines;
    use super::*;

    /// The comparisons of some books that are netted, as they are stored.
    fn stored(books: &[Vec<u8>]) -> Vec<u64> {
        let cases: Vec<Case> = books.iter().map(|book| net(book, book.len())).collect();
        let lines = lines(&cases);
        let figure = |line: &str| {
            let figures: Vec<&str> = line.split(' ').collect();
            assert_eq!((figures[0], figures[1], figures.len()), ("net", "0", 7));
            figures[5].parse().unwrap()
        };
        lines.lines().map(figure).collect()
    }

    /// Catches books that are not what they are stored for, by figures worked by hand.
    #[test]
    fn comparisons_by_hand() {
        assert_eq!(stored(&zeros()), [4, 5, 6, 4]);
        assert_eq!(stored(&classes()), [0, 4, 10]);
        assert_eq!(stored(&[all_apart()]), [499_500]);
        let orders = stored(&orders());
        let at = |issues: [usize; 3]| orders[issues[0] + 4 * issues[1] + 16 * issues[2]];
        assert_eq!([at([1, 1, 2]), at([1, 2, 2]), at([1, 2, 1])], [2, 3, 2]);
        assert_eq!([at([0, 0, 0]), at([3, 0, 3]), at([0, 3, 1])], [0, 1, 1]);
        // A row of the first, the second and the third of three issues.
        assert_eq!(orders[64..], [4, 5, 6]);
        assert_eq!(orders[..64].iter().max(), Some(&3));
    }

    /// Catches a count that is stored where there is no room.
    #[test]
    fn without_room_there_is_none() {
        let lines = lines(&cases());
        let refused: Vec<&str> = lines
            .lines()
            .filter(|line| line.starts_with("net 12 "))
            .collect();
        assert_eq!(refused.len(), 7);
        assert!(refused
            .iter()
            .all(|line| line.starts_with("net 12 0 0 0 0 ")));
    }
}
