//! A reading of offsetting, right or wrong on purpose.

use books::legs::LEG;
use books::{Book, Row};

/// What is wrong with offsetting.
#[derive(Clone, Copy, Debug, PartialEq)]
pub enum Wrong {
    /// Nothing: the reading is right.
    Nothing,
    /// A leg goes with the last later one that fits.
    Last,
    /// A leg goes with the later one that is nearest in days.
    Nearest,
    /// Legs are taken from the last one on.
    Backwards,
    /// A leg that is gone is offered again to the next that it fits.
    OfferedAgain,
    /// A leg that is gone takes another with it.
    TakesAgain,
    /// The earlier leg of a pair stays.
    EarlierStays,
    /// The days allowed are those of the farther leg.
    Farther,
    /// So many days more, or fewer, are allowed: under 30, from 30 to 360, beyond.
    Days([i32; 3]),
    /// The ranges of days begin so many days later: that of 30, that of 361.
    Ranges([i32; 2]),
    /// Coupons may be so many basis points apart.
    Coupons(u16),
    /// Amounts need not be equal.
    AnyAmount,
    /// Rows on one side fit.
    SameSide,
    /// Rows of these kinds are legs too.
    Kinds(&'static [u8]),
    /// Rows of two currencies fit.
    AcrossCurrencies,
    /// The issue numbers must be equal.
    OneIssue,
    /// Rows of one issue number other than 0 do not fit.
    OtherIssue,
    /// Equity rows are legs as well.
    EquityToo,
    /// Interest rows that are no legs stand behind the legs that stay.
    OthersMoved,
    /// The rows of the classes behind interest are turned round.
    ClassesTurned,
    /// The first leg that stays is left out too.
    LegLost,
    /// The last leg that stays is written twice.
    LegTwice,
    /// The count of interest rows stays what it was.
    CountKept,
    /// Books of more than so many rows stay as they are.
    LongKept(usize),
    /// Bytes past the written book are cleared.
    Cleared,
    /// A byte past the written book is written.
    PastTheEnd,
    /// 12 is told one byte late, or early.
    Twelve(i64),
    /// 12 is told where the output is shorter than the book itself.
    TwelveOfBook,
    /// 12 is told before a bad row.
    TwelveFirst,
    /// A refusal with 12 gives the length that is wanted.
    LengthKept,
    /// A refused call writes its first byte.
    RefusedWrites,
    /// Legs that offset each other are taken out before the rows are looked at.
    BeforeRows,
}

impl Wrong {
    /// The days allowed apart, by the nearer or the farther leg.
    fn days(self, days: u16) -> i32 {
        let [to_30, to_361] = match self {
            Wrong::Ranges(later) => later,
            _ => [0; 2],
        };
        let range = match i32::from(days) {
            days if days < 30 + to_30 => 0,
            days if days < 361 + to_361 => 1,
            _ => 2,
        };
        let more = match self {
            Wrong::Days(more) => more[range],
            _ => 0,
        };
        [0, 7, 30][range] + more
    }

    /// Whether two rows are taken to fit, but for their kinds.
    fn fit(self, one: &Row, other: &Row) -> bool {
        let (near, far) = (one.days.min(other.days), one.days.max(other.days));
        let days = self.days(if self == Wrong::Farther { far } else { near });
        let coupons = match self {
            Wrong::Coupons(most) => most,
            _ => 15,
        };
        let opposite = (one.long > 0) != (other.long > 0);
        let equal = one.long + one.short == other.long + other.short;
        let issues = match self {
            Wrong::OneIssue => one.issue == other.issue,
            Wrong::OtherIssue => one.issue == 0 || one.issue != other.issue,
            _ => true,
        };
        issues
            && (one.group == other.group || self == Wrong::AcrossCurrencies)
            && (opposite || self == Wrong::SameSide)
            && (equal || self == Wrong::AnyAmount)
            && one.coupon.abs_diff(other.coupon) <= coupons
            && i32::from(far - near) <= days
    }

    /// Whether a row is taken to be a leg.
    fn leg(self, row: &Row) -> bool {
        match self {
            Wrong::Kinds(kinds) => row.kind == LEG || kinds.contains(&row.kind),
            _ => row.kind == LEG,
        }
    }

    /// The place of the leg that goes with another, of those at some places.
    fn partner(self, rows: &[Row], at: usize, later: &[usize]) -> Option<usize> {
        let fits = |place: &usize| self.fit(&rows[at], &rows[*place]);
        let mut fitting = later.iter().copied().filter(fits);
        match self {
            Wrong::Last => fitting.next_back(),
            Wrong::Nearest => fitting.min_by_key(|place| rows[at].days.abs_diff(rows[*place].days)),
            _ => fitting.next(),
        }
    }

    /// Which rows of a class stay.
    fn stay(self, rows: &[Row]) -> Vec<bool> {
        let legs: Vec<usize> = (0..rows.len()).filter(|at| self.leg(&rows[*at])).collect();
        let (mut stay, mut earlier) = (vec![true; rows.len()], Vec::new());
        for (turn, at) in legs.iter().enumerate() {
            if !stay[*at] && self != Wrong::TakesAgain {
                continue;
            }
            let there = |place: &&usize| stay[**place] || self == Wrong::OfferedAgain;
            let later: Vec<usize> = legs[turn + 1..].iter().filter(there).copied().collect();
            if let Some(found) = self.partner(rows, *at, &later) {
                (stay[*at], stay[found]) = (false, false);
                earlier.push(*at);
            }
        }
        if self == Wrong::EarlierStays {
            earlier.into_iter().for_each(|at| stay[at] = true);
        }
        stay
    }

    /// Moves, loses or repeats rows of those that are left.
    fn arrange(self, left: &mut Vec<Row>) {
        let leg = |row: &Row| row.kind == LEG;
        match self {
            Wrong::Backwards => left.reverse(),
            Wrong::OthersMoved => left.sort_by_key(|row| !leg(row)),
            Wrong::LegLost => {
                let first = left.iter().position(leg);
                first.map(|at| left.remove(at));
            }
            Wrong::LegTwice => {
                let last = left.iter().rposition(leg);
                last.into_iter().for_each(|at| left.insert(at, left[at]));
            }
            _ => (),
        }
    }

    /// The rows that are left of a class.
    fn left(self, mut rows: Vec<Row>) -> Vec<Row> {
        if self == Wrong::Backwards {
            rows.reverse();
        }
        let stay = self.stay(&rows);
        let mut left: Vec<Row> = rows
            .into_iter()
            .zip(stay)
            .filter_map(|(row, stays)| stays.then_some(row))
            .collect();
        self.arrange(&mut left);
        left
    }

    /// The bytes that are left of a book.
    pub fn written(self, bytes: &[u8]) -> Vec<u8> {
        let mut book = Book::decode(bytes).unwrap_or_default();
        if matches!(self, Wrong::LongKept(rows) if book.rows() > rows) {
            return bytes.to_vec();
        }
        book.classes[0] = self.left(std::mem::take(&mut book.classes[0]));
        match self {
            Wrong::EquityToo => book.classes[1] = self.left(std::mem::take(&mut book.classes[1])),
            Wrong::ClassesTurned => book.classes[1..].iter_mut().for_each(|rows| rows.reverse()),
            _ => (),
        }
        let mut written = book.encode().expect("no more rows than before");
        if self == Wrong::CountKept && bytes.len() >= 8 {
            written[..2].copy_from_slice(&bytes[..2]);
        }
        written
    }
}
