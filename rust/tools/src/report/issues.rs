//! Why an issue cannot be netted, in words.

use super::explain::{fields, terms};
use crate::load::Given;
use crate::text::whole;
use books::names::kind_name;
use books::{Book, Row};

/// The fields that must be those of the first row: group, kind, days and coupon, by name and as
/// they are shown.
fn shown(class: usize, row: &Row) -> [(&'static str, String); 4] {
    let [days, coupon] = terms(class, row.kind);
    [
        ("group", row.group.to_string()),
        ("kind", kind_name(class, row.kind)),
        (days, whole(row.days)),
        (coupon, whole(row.coupon)),
    ]
}

/// The rows of an issue of a class, with their numbers in the whole file. A row of the book is
/// among those of its own issue.
fn of_issue(book: &Book, class: usize, issue: u16) -> Vec<(usize, Row)> {
    let before: usize = book.classes[..class].iter().map(Vec::len).sum();
    let rows = book.classes[class].iter().copied();
    let numbered = rows.enumerate().map(|(at, row)| (before + at, row));
    numbered.filter(|(_, row)| row.issue == issue).collect()
}

/// A row that differs, and what the first row of its issue has instead.
pub fn differing(given: &Given, book: &Book, class: usize, row: &Row) -> String {
    let (at, first) = of_issue(book, class, row.issue)[0];
    let pairs = shown(class, &first).into_iter().zip(shown(class, row));
    let differ = pairs.filter(|(first, own)| first != own);
    let has: Vec<String> = differ
        .map(|((name, value), _)| format!("{name} {value}"))
        .collect();
    format!(
        "{}; {}, the first of issue {}, has {}",
        fields(class, row),
        given.place(at),
        row.issue,
        has.join(", ")
    )
}

/// The first row of an issue whose net is too large, and the net.
pub fn over(book: &Book, class: usize, row: &Row) -> String {
    let rows = of_issue(book, class, row.issue);
    let sides = rows
        .iter()
        .map(|(_, row)| i64::from(row.long) - i64::from(row.short));
    let (net, count) = (sides.sum::<i64>(), rows.len());
    let side = if net < 0 { "short" } else { "long" };
    format!(
        "{}; the {count} rows of issue {} net to {side} {}, and 1,000,000,000 is the most",
        fields(class, row),
        row.issue,
        whole(net.unsigned_abs())
    )
}

#[cfg(test)]
mod tests {
    use super::super::explain;
    use super::*;

    /// A government bond of currency 7, or a share of market 7, with an issue number.
    fn row(issue: u16, long: u32, short: u32) -> Row {
        let row = Row::default().with_group(7).with_kind(1);
        row.with_issue(issue).with_sides(long, short)
    }

    /// What is told of a book that cannot be netted.
    fn told(interest: &[Row], equity: &[Row]) -> String {
        let mut book = Book::default();
        (book.classes[0], book.classes[1]) = (interest.to_vec(), equity.to_vec());
        let bytes = book.encode().unwrap();
        let refusal = market_risk::netted(&bytes).unwrap_err();
        explain(&Given::of_bytes(bytes), &refusal)
    }

    /// Catches a difference that is told without what the first row has, or without its number.
    #[test]
    fn thirteen_is_told_with_the_first_row_of_its_issue() {
        let why = "group, kind, days or coupon not those of the first row of its issue";
        let bond = row(5, 100, 0).with_days(1_080).with_coupon(800);
        let other = row(5, 0, 40)
            .with_group(8)
            .with_days(1_079)
            .with_coupon(800);
        let fields = "interest row: group 8, kind government, days 1,079, coupon 800, issue 5, \
                      long 0, short 40";
        let first = "row 1, the first of issue 5, has group 7, days 1,080";
        let text = told(&[row(6, 1, 0), bond, bond, other], &[row(5, 1, 0)]);
        assert_eq!(text, format!("refused 13 row 3: {why}\n{fields}; {first}"));
        // In a later class, where the number is another issue.
        let text = told(&[bond], &[row(5, 1, 0), row(5, 2, 0).with_kind(3)]);
        assert!(text.starts_with("refused 13 row 2: "), "{text}");
        let end = "issue 5, long 2, short 0; row 1, the first of issue 5, has kind ordinary";
        assert!(text.ends_with(end), "{text}");
    }

    /// Catches a final maturity that is called a coupon.
    #[test]
    fn notes_are_told_with_their_maturities() {
        let note = row(5, 1, 0).with_kind(4).with_days(90).with_coupon(2_880);
        let text = told(&[note, note.with_coupon(2_881)], &[]);
        let end = "; row 0, the first of issue 5, has final maturity 2,880";
        assert!(text.ends_with(end), "{text}");
        let text = told(&[note, note.with_days(91)], &[]);
        assert!(text.ends_with(" has days to fixing 90"), "{text}");
        let bond = note.with_kind(2);
        let text = told(&[note, bond], &[]);
        let end = " has kind floating, days to fixing 90, final maturity 2,880";
        assert!(text.ends_with(end), "{text}");
    }

    /// Catches a net that is told of other rows, or without its side.
    #[test]
    fn fourteen_is_told_with_the_net() {
        let most = 1_000_000_000;
        let shares = [row(9, 1, 0), row(5, 0, most), row(5, 0, 2), row(5, 1, 0)];
        let fields = "equity row: group 7, kind ordinary, days 0, coupon 0, issue 5, long 0, \
                      short 1,000,000,000";
        let net = "the 3 rows of issue 5 net to short 1,000,000,001, and 1,000,000,000 is the most";
        assert_eq!(
            told(&[row(5, 7, 0)], &shares),
            format!(
                "refused 14 row 2: the net of its issue is over 1,000,000,000\n{fields}; {net}"
            )
        );
        let text = told(&[row(5, most, 0), row(5, most, 0)], &[]);
        assert!(text.contains("; the 2 rows of issue 5 net to long 2,000,000,000, and "));
    }
}
