//! A book's refusal looked for once more, and the shortest file for it, to hold the library's to.

use books::names::{floating, kinds};
use books::{Book, Row, MOST_ROWS, ROW_BYTES};

/// What is wrong with a book: the number, and for a row its place in the file and its class.
#[derive(Clone, Copy, Debug, PartialEq, Eq)]
pub struct Fault {
    pub number: u64,
    pub row: Option<(usize, usize)>,
}

/// The most days and coupon of a class.
const MOST: [[u16; 2]; 4] = [[36_000, 10_000], [0, 0], [0, 0], [36_000, 0]];

/// The number of a row's days and coupon, or of a note's two maturities.
fn terms(class: usize, row: &Row) -> Option<u64> {
    let [days, coupon] = MOST[class];
    if floating(class, row.kind) {
        let whole = row.days <= 360 && row.days <= row.coupon && row.coupon <= 36_000;
        return (!whole).then_some(15);
    }
    let over = (row.days > days).then_some(6);
    over.or((row.coupon > coupon).then_some(7))
}

/// The number of a row's first fault.
fn of_row(class: usize, row: &Row) -> Option<u64> {
    let known = kinds(class).iter().any(|(kind, _)| *kind == row.kind);
    let sides = [row.long, row.short];
    let amounts = sides.iter().filter(|side| **side > 0).count();
    let large = sides.iter().any(|side| *side > 1_000_000_000);
    (row.group > 31)
        .then_some(4)
        .or((!known).then_some(5))
        .or_else(|| terms(class, row))
        .or((amounts != 1).then_some(8))
        .or(large.then_some(9))
}

/// How many rows the contents count.
fn counted(contents: &[u8]) -> usize {
    let counts = contents.chunks(2);
    counts
        .map(|count| usize::from(count[0]) + 256 * usize::from(count[1]))
        .sum()
}

/// The first fault of a file, in the order of the charge.
pub fn first_fault(bytes: &[u8]) -> Option<Fault> {
    let of_file = |number| Some(Fault { number, row: None });
    let Some(contents) = bytes.get(..8) else {
        return of_file(1);
    };
    if counted(contents) > MOST_ROWS {
        return of_file(2);
    }
    let Some(book) = Book::decode(bytes) else {
        return of_file(3);
    };
    let classes = book.classes.iter().enumerate();
    let rows = classes.flat_map(|(class, rows)| rows.iter().map(move |row| (class, row)));
    rows.enumerate().find_map(|(at, (class, row))| {
        let number = of_row(class, row)?;
        let row = Some((at, class));
        Some(Fault { number, row })
    })
}

/// The shortest file for a fault of a book.
pub fn shown(bytes: &[u8], fault: &Fault) -> Vec<u8> {
    let mut file = vec![0; 8];
    match (fault.number, fault.row) {
        (1, _) => file.clear(),
        (_, Some((at, class))) => {
            file[2 * class] = 1;
            file.extend(&bytes[8 + ROW_BYTES * at..][..ROW_BYTES]);
        }
        (3, _) if counted(&bytes[..8]) == 0 => file[0] = 1,
        _ => file.copy_from_slice(&bytes[..8]),
    }
    file
}

#[cfg(test)]
mod tests {
    use super::*;

    /// A row that every class accepts with its own kind.
    fn clean(class: usize) -> Row {
        let row = Row::default().with_group(7).with_sides(0, 5);
        row.with_kind([1, 1, 0, 0][class])
    }

    /// The bytes of a book of three rows of a class and one of each other, of which the last of the
    /// three is changed.
    fn book(class: usize, change: impl Fn(Row) -> Row) -> Vec<u8> {
        let classes: [Vec<Row>; 4] = [0, 1, 2, 3].map(|class| vec![clean(class)]);
        let mut book = Book { classes };
        book.classes[class] = vec![clean(class), clean(class), change(clean(class))];
        book.encode().unwrap()
    }

    /// The number of the fault of such a book, which must be of that row, or 0.
    fn number(class: usize, change: impl Fn(Row) -> Row) -> u64 {
        let Some(fault) = first_fault(&book(class, change)) else {
            return 0;
        };
        assert_eq!(fault.row, Some((class + 2, class)));
        fault.number
    }

    /// Catches a limit that is one off, in each class.
    #[test]
    fn rows_at_their_limits_and_past_them() {
        for (class, [days, coupon]) in MOST.into_iter().enumerate() {
            let kinds = [0..5, 0..4, 0..1, 0..1][class].clone();
            let unknown = [0, 0, 9, 9][class];
            for kind in 0..=255 {
                let known = kinds.contains(&kind) && kind != unknown;
                let expected = if known { 0 } else { 5 };
                assert_eq!(number(class, |row| row.with_kind(kind)), expected, "{kind}");
            }
            let at = |row: Row| row.with_group(31).with_days(days).with_coupon(coupon);
            assert_eq!(number(class, at), 0);
            assert_eq!(number(class, |row| row.with_group(32)), 4);
            assert_eq!(number(class, |row| row.with_days(days + 1)), 6);
            assert_eq!(number(class, |row| row.with_coupon(coupon + 1)), 7);
            for (long, short, expected) in [
                (0, 0, 8),
                (1, 1, 8),
                (1_000_000_000, 0, 0),
                (1_000_000_001, 0, 9),
                (0, 1_000_000_001, 9),
                (u32::MAX, 1, 8),
            ] {
                assert_eq!(number(class, |row| row.with_sides(long, short)), expected);
            }
        }
    }

    #[test]
    fn notes_at_their_limits_and_past_them() {
        for (fixing, maturity, expected) in [
            (0, 0, 0),
            (360, 360, 0),
            (360, 36_000, 0),
            (361, 36_000, 15),
            (360, 36_001, 15),
            (360, 359, 15),
        ] {
            let note = |row: Row| row.with_kind(4).with_days(fixing).with_coupon(maturity);
            assert_eq!(number(0, note), expected, "{fixing} {maturity}");
            let other = |row: Row| note(row).with_sides(0, 0);
            assert_eq!(number(0, other), if expected == 0 { 8 } else { 15 });
            assert_eq!(number(1, note), 5);
        }
    }

    /// Catches a fault that is told before one of a smaller number, or of an earlier row.
    #[test]
    fn the_first_fault_is_told() {
        let all = |row: Row| {
            let row = row.with_group(32).with_kind(9).with_days(65_535);
            row.with_coupon(65_535).with_sides(0, 0)
        };
        assert_eq!(number(0, all), 4);
        assert_eq!(number(0, |row| all(row).with_group(0)), 5);
        assert_eq!(number(0, |row| all(row).with_group(0).with_kind(1)), 6);
        let mut two = book(1, |row| row.with_sides(0, 0));
        two[8 + 5 * 16] = 32;
        let fault = Fault {
            number: 8,
            row: Some((3, 1)),
        };
        assert_eq!(first_fault(&two), Some(fault));
    }

    /// The number and the file of bytes that are no book.
    fn of_file(bytes: &[u8]) -> (u64, Vec<u8>) {
        let fault = first_fault(bytes).unwrap();
        assert_eq!(fault.row, None);
        (fault.number, shown(bytes, &fault))
    }

    #[test]
    fn contents_by_hand() {
        assert_eq!(of_file(&[]), (1, vec![]));
        assert_eq!(of_file(&[9; 7]), (1, vec![]));
        let most = [0xa0, 0x0f, 0, 0, 0, 0, 0, 0];
        assert_eq!(of_file(&most), (3, most.to_vec()));
        let over = [0xa0, 0x0f, 0, 0, 0, 0, 1, 0];
        assert_eq!(of_file(&over), (2, over.to_vec()));
        assert_eq!(of_file(&[&over[..], &[7; 9]].concat()), (2, over.to_vec()));
        assert_eq!(of_file(&[0; 9]), (3, vec![1, 0, 0, 0, 0, 0, 0, 0]));
        let one = [0, 0, 0, 0, 0, 0, 1, 0];
        assert_eq!(of_file(&[&one[..], &[0; 17]].concat()), (3, one.to_vec()));
        assert_eq!(first_fault(&[0; 8]), None);
    }

    #[test]
    fn rows_by_hand() {
        for class in 0..4 {
            let bytes = book(class, |row| row.with_group(32).with_issue(0xabcd));
            let fault = first_fault(&bytes).unwrap();
            let mut file = vec![0; 8];
            file[2 * class] = 1;
            file.extend([32, [1, 1, 0, 0][class], 0, 0, 0, 0, 0xcd, 0xab]);
            file.extend([0, 0, 0, 0, 5, 0, 0, 0]);
            assert_eq!(shown(&bytes, &fault), file);
        }
    }
}
