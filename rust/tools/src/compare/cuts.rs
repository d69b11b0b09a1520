//! The smaller files next to a file, made one by one: a full book has many.

use books::{Book, Row};

/// Files, one after the other.
type Files<'a> = Box<dyn Iterator<Item = Vec<u8>> + 'a>;

/// The smaller files that a file may be cut to: none, an empty book, fewer rows,
/// plainer rows, and for a file without rows fewer or plainer bytes.
pub fn cuts(bytes: &[u8]) -> Files<'_> {
    let least = [vec![], vec![0; 8]].into_iter();
    let least = least.filter(|cut| cut.len() < bytes.len());
    match Book::decode(bytes) {
        Some(book) => {
            let (fewer, plainer) = (fewer_rows(book.clone()), plainer_rows(book));
            Box::new(least.chain(fewer.chain(plainer).filter_map(|book| book.encode())))
        }
        None => Box::new(least.chain(plainer_bytes(bytes))),
    }
}

/// Where runs of rows begin and end: the whole first, then halves, single rows last.
pub fn runs(rows: usize) -> impl Iterator<Item = (usize, usize)> {
    let halves = std::iter::successors(Some(rows), |run| Some(run / 2));
    let lengths = halves.take_while(|run| *run > 0);
    lengths.flat_map(move |run| {
        let starts = (0..rows).step_by(run);
        starts.map(move |start| (start, rows.min(start + run)))
    })
}

/// The book without a run of rows of one class.
fn fewer_rows(book: Book) -> impl Iterator<Item = Book> {
    let lengths = book.classes.each_ref().map(Vec::len);
    let cuts = (0..lengths.len()).flat_map(move |class| {
        let runs = runs(lengths[class]);
        runs.map(move |(start, end)| (class, start, end))
    });
    cuts.map(move |(class, start, end)| {
        let mut book = book.clone();
        book.classes[class].drain(start..end);
        book
    })
}

/// Rows with one field made zero, or smaller.
fn plainer(row: Row) -> Vec<Row> {
    let (long, short) = (row.long, row.short);
    let mut rows = vec![
        row.with_group(0),
        row.with_kind(0),
        row.with_kind(1),
        row.with_days(0),
        row.with_coupon(0),
        row.with_issue(0),
    ];
    let less = |amount: u32| [0, 1, amount / 2, amount.saturating_sub(1)];
    rows.extend(less(long).map(|long| row.with_sides(long, short)));
    rows.extend(less(short).map(|short| row.with_sides(long, short)));
    rows.retain(|plain| weight(plain) < weight(&row));
    rows
}

/// A measure that every cut of a row lowers.
fn weight(row: &Row) -> u64 {
    let kind = [1, 0].get(usize::from(row.kind)).copied().unwrap_or(2);
    let small = [row.days, row.coupon, row.issue].map(u64::from);
    let amounts = u64::from(row.long) + u64::from(row.short);
    small.iter().sum::<u64>() + u64::from(row.group) + kind + amounts
}

/// The book with all its rows in group 0.
fn one_group(book: &Book) -> Book {
    let mut book = book.clone();
    let rows = book.classes.iter_mut().flatten();
    rows.for_each(|row| row.group = 0);
    book
}

/// A file with all its rows, if it has any, in group 0.
pub fn in_one_group(bytes: &[u8]) -> Vec<u8> {
    let plain = Book::decode(bytes).and_then(|book| one_group(&book).encode());
    plain.unwrap_or_else(|| bytes.to_vec())
}

/// The book with all groups one, or one row made plainer.
fn plainer_rows(book: Book) -> impl Iterator<Item = Book> {
    let one_group = Some(one_group(&book)).filter(|plain| *plain != book);
    let mut changes = Vec::new();
    for (class, rows) in book.classes.iter().enumerate() {
        for (at, row) in rows.iter().enumerate() {
            changes.extend(plainer(*row).into_iter().map(|plain| (class, at, plain)));
        }
    }
    let changed = changes.into_iter().map(move |(class, at, plain)| {
        let mut book = book.clone();
        book.classes[class][at] = plain;
        book
    });
    one_group.into_iter().chain(changed)
}

/// A file that is no list of rows: shorter, or with one byte made zero.
pub fn plainer_bytes(bytes: &[u8]) -> impl Iterator<Item = Vec<u8>> + '_ {
    let length = bytes.len();
    let lengths = [
        length / 2,
        length.saturating_sub(16),
        length.saturating_sub(1),
    ];
    let shorter = lengths.into_iter().map(|length| bytes[..length].to_vec());
    let zeroed = (0..length).map(|at| {
        let mut cut = bytes.to_vec();
        cut[at] = 0;
        cut
    });
    shorter.chain(zeroed).filter(move |cut| cut != bytes)
}

#[cfg(test)]
mod tests {
    use super::*;

    #[test]
    fn runs_go_from_the_whole_to_single_rows() {
        let expected = [(0, 3), (0, 1), (1, 2), (2, 3)];
        assert_eq!(runs(3).collect::<Vec<_>>(), expected);
        assert_eq!(runs(0).count(), 0);
    }

    #[test]
    fn an_empty_file_has_no_cuts() {
        assert_eq!(cuts(&[]).count(), 0);
        assert_eq!(cuts(&[0; 8]).collect::<Vec<_>>(), [vec![]]);
    }

    #[test]
    fn every_plainer_row_weighs_less() {
        let row = Row::default().with_kind(3).with_days(9).with_sides(5, 0);
        assert!(!plainer(row).is_empty());
        assert!(plainer(row)
            .iter()
            .all(|plain| weight(plain) < weight(&row)));
        assert!(plainer(Row::default().with_kind(1)).is_empty());
    }
}
