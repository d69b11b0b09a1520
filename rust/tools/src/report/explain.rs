//! A refusal in words.

use super::issues::{differing, over};
use crate::load::{Given, BOOK};
use crate::text::whole;
use books::csv::HEADER;
use books::names::{floating, kind_name, kinds, CLASS_NAMES};
use books::{Book, Row};
use market_risk::Refusal;

/// What the refused field of a row may be.
fn allowed(number: u64, class: usize) -> String {
    let dated = class == 0 || class == 3;
    let known: Vec<&str> = kinds(class).iter().map(|(_, name)| *name).collect();
    match number {
        4 => "group may be 0 to 31".into(),
        5 => format!("kind may be {}", known.join(", ")),
        6 if dated => "days may be 0 to 36,000".into(),
        6 => "days must be 0".into(),
        7 if class == 0 => "coupon may be 0 to 10,000".into(),
        7 => "coupon must be 0".into(),
        8 => "exactly one of long and short must be nonzero".into(),
        9 => "an amount may be at most 1,000,000,000".into(),
        15 => "days to fixing may be 0 to 360, and final maturity from there to 36,000".into(),
        _ => unreachable!("no row is refused with {number}"),
    }
}

/// What the fields `days` and `coupon` of a row are.
pub fn terms(class: usize, kind: u8) -> [&'static str; 2] {
    match floating(class, kind) {
        true => ["days to fixing", "final maturity"],
        false => ["days", "coupon"],
    }
}

/// The fields of a row in words.
pub fn fields(class: usize, row: &Row) -> String {
    let [days, coupon] = terms(class, row.kind);
    format!(
        "{} row: group {}, kind {}, {days} {}, {coupon} {}, issue {}, long {}, short {}",
        CLASS_NAMES[class],
        row.group,
        kind_name(class, row.kind),
        whole(row.days),
        whole(row.coupon),
        row.issue,
        whole(row.long),
        whole(row.short)
    )
}

/// The four counts of a file of at least eight bytes.
fn counts(bytes: &[u8]) -> [u16; 4] {
    std::array::from_fn(|class| u16::from_le_bytes([bytes[2 * class], bytes[2 * class + 1]]))
}

/// The counts of a file, and the rows that they make.
fn counted(bytes: &[u8]) -> String {
    let counts = counts(bytes);
    let rows: u64 = counts.iter().copied().map(u64::from).sum();
    format!(
        "counts {} rows, together {}",
        counts.map(whole).join(", "),
        whole(rows)
    )
}

/// A file that is too short for a book.
fn short(bytes: &[u8]) -> String {
    let found = match bytes.len() {
        0 => "the file is empty".into(),
        length => format!("the file has {length} bytes"),
    };
    format!("{found}; the text of a book begins with the line {HEADER}")
}

/// A refusal explained, with its row's fields.
pub fn explain(given: &Given, refusal: &Refusal) -> String {
    let bytes = &given.bytes[..];
    let length = BOOK.length(bytes);
    let book = Book::decode(bytes).unwrap_or_default();
    let more = match (refusal.number, book.row(refusal.row as usize)) {
        (1, _) => short(bytes),
        (2, _) if given.is_text() => {
            format!("the text {}, and 4,000 are the most", counted(bytes))
        }
        (2, _) => format!(
            "the file has {length} bytes and {}, and 4,000 are the most",
            counted(bytes)
        ),
        (3, _) => format!("the file has {length} bytes and {}", counted(bytes)),
        (20, _) => {
            let [interest, equity, ..] = counts(bytes).map(whole);
            format!("the file counts {interest} interest and {equity} equity rows")
        }
        (number @ (4..=9 | 15), Some((class, row))) => {
            format!("{}; {}", fields(class, &row), allowed(number, class))
        }
        (13, Some((class, row))) => differing(given, &book, class, &row),
        (14, Some((class, row))) => over(&book, class, &row),
        _ => return given.refused(refusal),
    };
    format!("{}\n{more}", given.refused(refusal))
}

#[cfg(test)]
mod tests {
    use super::*;

    fn explained(bytes: &[u8]) -> String {
        let given = Given::of_bytes(bytes.to_vec());
        explain(&given, &market_risk::check(bytes).unwrap_err())
    }

    #[test]
    fn a_row_is_explained_with_its_fields() {
        let mut book = Book::default();
        book.classes[3].push(Row {
            group: 4,
            days: 40_000,
            short: 1_500,
            ..Row::default()
        });
        let text = explained(&book.encode().unwrap());
        let fields = "commodity row: group 4, kind none, days 40,000, coupon 0, issue 0, long 0, short 1,500";
        assert_eq!(
            text,
            format!("refused 6 row 0: days out of their range\n{fields}; days may be 0 to 36,000")
        );
    }

    /// A book of one floating-rate note, changed.
    fn note(change: impl Fn(Row) -> Row) -> Vec<u8> {
        let row = Row::default().with_group(7).with_kind(4);
        let note = row.with_days(90).with_coupon(2_880).with_sides(1_500, 0);
        let mut book = Book::default();
        book.classes[0].push(change(note));
        book.encode().unwrap()
    }

    /// Catches a note whose final maturity is shown as a coupon, and a number without words.
    #[test]
    fn a_floating_rate_note_is_explained_with_its_two_maturities() {
        let row = |fixing: &str, maturity: &str| {
            format!(
                "interest row: group 7, kind floating, days to fixing {fixing}, \
                 final maturity {maturity}, issue 0, long 1,500, short 0; "
            )
        };
        let why = "fixing over 360 days, or final maturity over 36,000 or before fixing";
        let may = "days to fixing may be 0 to 360, and final maturity from there to 36,000";
        for (fixing, maturity, shown) in [
            (361, 2_880, row("361", "2,880")),
            (90, 36_001, row("90", "36,001")),
            (90, 89, row("90", "89")),
        ] {
            let text = explained(&note(|row| row.with_days(fixing).with_coupon(maturity)));
            assert_eq!(text, format!("refused 15 row 0: {why}\n{shown}{may}"));
        }
        // Another fault of a note shows the same fields, and kind 4 is none elsewhere.
        let text = explained(&note(|row| row.with_group(32)));
        assert!(text.contains("days to fixing 90, final maturity 2,880"));
        let mut book = Book::default();
        book.classes[1].push(Row::default().with_kind(4).with_sides(1, 0));
        let text = explained(&book.encode().unwrap());
        assert!(text.contains("equity row: group 0, kind 4, days 0, coupon 0"));
        assert!(text.ends_with("kind may be ordinary, diversified, index"));
        let text = explained(&note(|row| row.with_kind(5)));
        assert!(text.ends_with("kind may be government, qualifying, other, floating"));
    }

    #[test]
    fn contents_are_explained_with_their_counts() {
        let begins = "; the text of a book begins with the line class,group,";
        assert!(explained(&[1, 2]).contains(&format!("the file has 2 bytes{begins}")));
        assert!(explained(&[]).contains(&format!("the file is empty{begins}")));
        let text = explained(&[1, 0, 2, 0, 0, 0, 0, 0]);
        assert!(text.ends_with("the file has 8 bytes and counts 1, 2, 0, 0 rows, together 3"));
        let text = explained(&[0xa0, 0x0f, 0, 0, 1, 0, 0, 0]);
        let counts = "counts 4,000, 0, 1, 0 rows, together 4,001, and 4,000 are the most";
        assert!(text.ends_with(&format!("the file has 8 bytes and {counts}")));
        // Of a longer file no more is read.
        let text = explained(&[0; 64_009]);
        assert!(text.ends_with("has more than 64,008 bytes and counts 0, 0, 0, 0 rows, together 0"));
    }

    /// Catches a small bank's book that is told without what it should not have.
    #[test]
    fn twenty_is_explained_with_its_two_counts() {
        let mut book = Book::default();
        let row = Row::default().with_sides(1, 0);
        book.classes = [vec![row; 1_234], vec![row; 5], vec![row; 6], vec![row; 7]];
        let bytes = book.encode().unwrap();
        let refusal = market_risk::small_bank(&bytes).unwrap_err();
        assert_eq!(
            explain(&Given::of_bytes(bytes), &refusal),
            "refused 20: interest or equity rows in a small bank's book\n\
             the file counts 1,234 interest and 5 equity rows"
        );
    }

    #[test]
    fn a_refused_group_names_no_row() {
        let mut book = Book::default();
        book.classes[2].push(Row {
            long: 1,
            ..Row::default()
        });
        let bytes = book.encode().unwrap();
        let table = market_risk::Table::amendment();
        let refusal = market_risk::interest_ladder(&bytes, &table, 32).unwrap_err();
        assert_eq!(
            explain(&Given::of_bytes(bytes), &refusal),
            "refused 10: ladder group over 31"
        );
    }
}
