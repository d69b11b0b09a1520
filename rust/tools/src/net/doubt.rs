//! The netted rows once more, to hold the library's to.

use super::count::counted;
use crate::text::whole;
use crate::written::unlike;
use books::{Book, Row};

/// The net of the rows of an issue, longs above zero.
fn net(rows: &[Row], issue: u16) -> i64 {
    let own = rows.iter().filter(|row| row.issue == issue);
    own.map(|row| i64::from(row.long) - i64::from(row.short))
        .sum()
}

/// The netted rows of a class: of each issue its first row with the net of all, or none.
fn netted(rows: &[Row]) -> Option<Vec<Row>> {
    let mut kept = Vec::new();
    for (at, row) in rows.iter().enumerate() {
        let seen = rows[..at].iter().any(|before| before.issue == row.issue);
        if row.issue == 0 {
            kept.push(*row);
        } else if !seen {
            let net = net(rows, row.issue);
            let amount = u32::try_from(net.unsigned_abs()).ok()?;
            let sides = if net > 0 { (amount, 0) } else { (0, amount) };
            kept.extend((net != 0).then_some(row.with_sides(sides.0, sides.1)));
        }
    }
    Some(kept)
}

/// The netted book of another that the library has netted; or why it cannot have.
pub fn netted_book(book: &[u8]) -> Result<Book, String> {
    let whole = Book::decode(book).ok_or("the library netted what is no book")?;
    let classes = whole.classes.iter().map(|rows| netted(rows));
    let netted: Option<Vec<Vec<Row>>> = classes.collect();
    let classes = netted.ok_or("the library netted an issue that is too large")?;
    Ok(Book {
        classes: classes.try_into().expect("as many classes as before"),
    })
}

/// Why a book cannot be the netted one of another.
pub fn doubt(book: &[u8], library: &[u8]) -> Option<String> {
    let Some(own) = Book::decode(library) else {
        return Some("the library's netted book is no book".into());
    };
    match netted_book(book) {
        Ok(expected) => {
            let mut classes = (0..).zip(own.classes.iter().zip(&expected.classes));
            classes.find_map(|(class, (own, expected))| {
                unlike(["netted", "book"], class, own, expected)
            })
        }
        Err(why) => Some(why),
    }
}

/// Why so many comparisons cannot be those of netting a book.
pub fn doubt_count(book: &[u8], library: u64) -> Option<String> {
    let expected = counted(&Book::decode(book).unwrap_or_default());
    let [told, by_the_book] = [library, expected].map(whole);
    (library != expected).then(|| {
        format!("the library made {told} comparisons, by the book there are {by_the_book}")
    })
}

#[cfg(test)]
mod tests {
    use super::*;

    /// An equity row of an issue.
    fn row(issue: u16, long: u32, short: u32) -> Row {
        let row = Row::default().with_group(3).with_kind(1);
        row.with_issue(issue).with_sides(long, short)
    }

    /// The bytes of a book of equity rows.
    fn book(rows: &[Row]) -> Vec<u8> {
        let mut book = Book::default();
        book.classes[1] = rows.to_vec();
        book.encode().unwrap()
    }

    /// What is told where a netted book has these rows.
    fn told(rows: &[Row]) -> Option<String> {
        let whole = [
            row(5, 100, 0),
            row(0, 7, 0),
            row(9, 1, 0),
            row(5, 0, 40),
            row(0, 0, 7),
            row(9, 0, 1),
        ];
        doubt(&book(&whole), &book(rows))
    }

    const RIGHT: [(u16, u32, u32); 3] = [(5, 60, 0), (0, 7, 0), (0, 0, 7)];

    #[test]
    fn the_netted_book_is_not_doubted() {
        let right = RIGHT.map(|(issue, long, short)| row(issue, long, short));
        assert_eq!(told(&right), None);
        assert_eq!(doubt(&[0; 8], &[0; 8]), None);
    }

    /// Catches a wrong amount, side, place or number that is not told.
    #[test]
    fn a_wrong_row_is_told() {
        let wrong = |at: usize, new: Row| {
            let mut rows = RIGHT.map(|(issue, long, short)| row(issue, long, short));
            rows[at] = new;
            told(&rows).unwrap()
        };
        let shown = "netted, equity row 0 is by the library equity row: group 3, kind ordinary, \
                     days 0, coupon 0, issue 5, long 61, short 0, by the book equity row: group 3, \
                     kind ordinary, days 0, coupon 0, issue 5, long 60, short 0";
        assert_eq!(wrong(0, row(5, 61, 0)), shown);
        assert!(wrong(0, row(5, 0, 60)).contains("issue 5, long 0, short 60, by "));
        assert!(wrong(0, row(0, 7, 0)).starts_with("netted, equity row 0 is "));
        assert!(wrong(2, row(1, 0, 7)).starts_with("netted, equity row 2 is "));
    }

    /// Catches a wrong count that is not told, in either way.
    #[test]
    fn a_wrong_count_is_told() {
        let whole = book(&[row(5, 1, 0), row(6, 1, 0), row(5, 1, 0)]);
        assert_eq!(doubt_count(&whole, 2), None);
        for wrong in [0, 1, 3, 1_002] {
            let told = doubt_count(&whole, wrong).unwrap();
            assert!(told.ends_with(" comparisons, by the book there are 2"));
        }
        let told = "the library made 1,002 comparisons, by the book there are 2";
        assert_eq!(doubt_count(&whole, 1_002).unwrap(), told);
        assert_eq!(doubt_count(&[0; 8], 0), None);
    }

    /// Catches rows too many or too few, and what is no book.
    #[test]
    fn wrong_counts_are_told() {
        let mut rows = RIGHT
            .map(|(issue, long, short)| row(issue, long, short))
            .to_vec();
        rows.push(row(9, 0, 0));
        let many = "equity has 3 rows netted, the library's book 4";
        assert_eq!(told(&rows), Some(many.into()));
        let few = "equity has 3 rows netted, the library's book 2";
        assert_eq!(told(&rows[..2]), Some(few.into()));
        let none = "the library's netted book is no book";
        assert_eq!(doubt(&[0; 8], &[0; 9]), Some(none.into()));
        let what = "the library netted what is no book";
        assert_eq!(doubt(&[0; 9], &[0; 8]), Some(what.into()));
        let large = vec![row(5, u32::MAX, 0); 2];
        let why = "the library netted an issue that is too large";
        assert_eq!(doubt(&book(&large), &book(&large)), Some(why.into()));
    }
}
