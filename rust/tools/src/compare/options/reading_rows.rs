//! The book of some options by a reading.

use super::readings::Wrong;
use books::options::OptionRow;
use books::{Book, Row};

impl Wrong {
    /// The amount of an option's row.
    fn amount(self, option: &OptionRow) -> u32 {
        let exact = u64::from(option.amount) * u64::from(option.delta);
        let exact = match self {
            Wrong::NarrowProduct => u64::from(exact as u32),
            _ => exact,
        };
        let amount = match self {
            Wrong::RoundedDown => exact / 10_000,
            Wrong::Nearest => (exact + 5_000) / 10_000,
            Wrong::OneTooHigh => exact / 10_000 + 1,
            _ => exact.div_ceil(10_000),
        };
        amount as u32
    }

    /// Whether an option's row is long.
    fn long(self, right: u8) -> bool {
        let other = matches!(self, Wrong::Side(own) if own == right);
        [0, 3].contains(&right) != other
    }

    /// The row of an option, if it has one.
    fn row(self, option: &OptionRow) -> Option<Row> {
        if option.delta == 0 && self != Wrong::RowAtZero {
            return None;
        }
        let row = Row::default()
            .with_group(option.group)
            .with_kind(option.kind);
        let row = row
            .with_days(option.days)
            .with_sides(self.amount(option), 0);
        let row = match self {
            Wrong::OtherGroup => row.with_group(option.group ^ 1),
            Wrong::OtherKind => row.with_kind(option.kind.min(1)),
            Wrong::OtherDays => row.with_days(0),
            Wrong::CouponSet => row.with_coupon(option.delta),
            _ => row,
        };
        Some(match self.long(option.right) {
            true => row,
            false => row.mirrored(),
        })
    }

    /// The book of some options.
    pub fn book(self, options: &[OptionRow]) -> Vec<u8> {
        let mut book = Book::default();
        for option in options {
            // A class that is wrongly taken is like the next.
            let rows = &mut book.classes[usize::from(option.class.clamp(2, 4)) - 1];
            rows.extend(self.row(option));
        }
        for rows in &mut book.classes {
            match self {
                Wrong::Reversed => rows.reverse(),
                Wrong::ByGroup => rows.sort_by_key(|row| row.group),
                Wrong::LongsFirst => rows.sort_by_key(|row| row.short > 0),
                _ => (),
            }
        }
        if self == Wrong::IssueSet {
            let rows = book.classes.iter_mut().flatten();
            rows.zip(1..).for_each(|(row, issue)| row.issue = issue);
        }
        book.encode().expect("at most 65,535 rows")
    }
}
