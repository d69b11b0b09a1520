//! A reading of netting, right or wrong on purpose.

use super::count_readings::Count;
use books::{Book, Row};

/// What is wrong with netting.
#[derive(Clone, Copy, Debug, PartialEq)]
pub enum Wrong {
    /// Nothing: the reading is right.
    Nothing,
    /// The net stands in the place of the last row of its issue.
    LastPlace,
    /// Rows numbered 0 are one issue of their class.
    ZeroNetted,
    /// One number is one issue in all classes.
    AcrossClasses,
    /// An issue that nets to zero stays, with both amounts zero.
    ZeroKept,
    /// 14 is told where the sum passes the limit on the way.
    RunningSum,
    /// 14 is told before a 13 later in the file.
    FourteenFirst,
    /// 13 is told at the first row of the issue.
    ThirteenAtFirst,
    /// 14 is told at the last row of the issue.
    FourteenAtLast,
    /// Bytes past the netted book are cleared.
    Cleared,
    /// 12 is tried before 13 and 14.
    TwelveFirst,
    /// 12 is told where the output is shorter than the book itself.
    TwelveOfBook,
    /// 13 is told before a bad row.
    ThirteenBeforeRows,
    /// This field is not compared: group, kind, days, coupon.
    NotCompared(usize),
    /// Of a floating-rate note the final maturity is not compared.
    MaturityNotCompared,
    /// A net at the limit is refused.
    LimitRefused,
    /// Only long nets have a limit.
    ShortUnlimited,
    /// Sums have 32 bits.
    Wrapped,
    /// The net stands on the side of the first row, whatever its sign.
    SideOfFirst,
    /// Amounts are added whatever their sides, on the side of the first row.
    Added,
    /// Two rows of an issue become one, a third stays.
    PairsAlone,
    /// Rows are numbered in their class.
    RowOfClass,
    /// A refusal with 12 gives the length that is wanted.
    LengthKept,
    /// A refused call writes its first byte.
    RefusedWrites,
    /// A byte past the netted book is written.
    PastTheEnd,
    /// Books of more than so many rows stay as they are.
    LongKept(usize),
    /// The book is right, and its comparisons are not.
    Counted(Count),
}

/// A row with its class and its number in the file.
#[derive(Clone, Copy)]
struct Leg {
    class: usize,
    at: usize,
    row: Row,
}

/// The rows of one issue, or one row alone.
type Issue = Vec<Leg>;

/// Why netting is refused: number and row.
pub type Refused = [u64; 2];

impl Wrong {
    /// What rows are netted by, unless each is alone.
    fn key(self, leg: &Leg) -> Option<(usize, u16)> {
        let class = if self == Wrong::AcrossClasses {
            0
        } else {
            leg.class
        };
        let issue = leg.row.issue != 0 || self == Wrong::ZeroNetted;
        issue.then_some((class, leg.row.issue))
    }

    /// The issues of a book, each in the place of its first row.
    fn issues(self, legs: &[Leg]) -> Vec<Issue> {
        let full = |issue: &Issue| self == Wrong::PairsAlone && issue.len() == 2;
        let long = matches!(self, Wrong::LongKept(rows) if legs.len() > rows);
        let mut issues: Vec<Issue> = Vec::new();
        for leg in legs {
            let key = self.key(leg).filter(|_| !long);
            let same =
                |issue: &&mut Issue| key.is_some() && self.key(&issue[0]) == key && !full(issue);
            match issues.iter_mut().find(same) {
                Some(issue) => issue.push(*leg),
                None => issues.push(vec![*leg]),
            }
        }
        issues
    }

    /// Whether a row is taken to be unlike another of its issue.
    fn unlike(self, first: &Leg, leg: &Leg) -> bool {
        let (one, two) = (&first.row, &leg.row);
        let floating = leg.class == 0 && two.kind == 4;
        let differ = [
            one.group != two.group,
            one.kind != two.kind,
            one.days != two.days,
            one.coupon != two.coupon && !(self == Wrong::MaturityNotCompared && floating),
        ];
        let compared = |field: &usize| self != Wrong::NotCompared(*field);
        (0..4).filter(compared).any(|field| differ[field])
    }

    /// The signed sum of rows.
    fn sum(self, legs: &[Leg]) -> i64 {
        let first_long = legs[0].row.long > 0;
        let side = |leg: &Leg| match self {
            Wrong::Added if first_long => i64::from(leg.row.long.max(leg.row.short)),
            Wrong::Added => -i64::from(leg.row.long.max(leg.row.short)),
            _ => i64::from(leg.row.long) - i64::from(leg.row.short),
        };
        let sum: i64 = legs.iter().map(side).sum();
        match self {
            Wrong::Wrapped => i64::from(sum as i32),
            Wrong::SideOfFirst if first_long => sum.abs(),
            Wrong::SideOfFirst => -sum.abs(),
            _ => sum,
        }
    }

    /// Whether an issue is taken to net to too much.
    fn over(self, issue: &Issue) -> bool {
        let most = 1_000_000_000;
        let large = |legs: &[Leg]| match self {
            Wrong::LimitRefused => issue.len() > 1 && self.sum(legs).abs() >= most,
            Wrong::ShortUnlimited => self.sum(legs) > most,
            _ => self.sum(legs).abs() > most,
        };
        let ends = 1..=issue.len();
        match self {
            Wrong::RunningSum => ends.into_iter().any(|end| large(&issue[..end])),
            _ => large(issue),
        }
    }

    /// The first row that is unlike its issue.
    fn thirteen(self, issues: &[Issue]) -> Option<Refused> {
        let of_issue = |issue: &Issue| {
            let mut later = 1..issue.len();
            let at = later.find(|at| self.unlike(&issue[0], &issue[*at]))?;
            Some((issue[at].at, issue[0].at))
        };
        let (differing, first) = issues.iter().filter_map(of_issue).min()?;
        let row = if self == Wrong::ThirteenAtFirst {
            first
        } else {
            differing
        };
        Some([13, row as u64])
    }

    /// The first issue that nets to too much.
    fn fourteen(self, issues: &[Issue]) -> Option<Refused> {
        let issue = issues.iter().find(|issue| self.over(issue))?;
        let row = match self {
            Wrong::FourteenAtLast => issue[issue.len() - 1].at,
            _ => issue[0].at,
        };
        Some([14, row as u64])
    }

    /// The rows of the netted book, by class.
    fn rows(self, mut issues: Vec<Issue>) -> Book {
        if self == Wrong::LastPlace {
            issues.sort_by_key(|issue| issue[issue.len() - 1].at);
        }
        let mut book = Book::default();
        for issue in issues {
            let sum = self.sum(&issue);
            let amount = sum.unsigned_abs() as u32;
            let (long, short) = if sum > 0 { (amount, 0) } else { (0, amount) };
            if sum != 0 || self == Wrong::ZeroKept {
                book.classes[issue[0].class].push(issue[0].row.with_sides(long, short));
            }
        }
        book
    }

    /// The refusal of a book's issues, in their order.
    fn refusal(self, issues: &[Issue]) -> Option<Refused> {
        let (thirteen, fourteen) = (self.thirteen(issues), self.fourteen(issues));
        match self {
            Wrong::FourteenFirst => fourteen.or(thirteen),
            _ => thirteen.or(fourteen),
        }
    }

    /// Nets a book into so much room: the bytes to write, or why not.
    pub fn net(self, bytes: &[u8], room: usize) -> Result<Vec<u8>, Refused> {
        let legs = legs(bytes);
        let issues = self.issues(&legs);
        let check = second::check(bytes);
        if self == Wrong::ThirteenBeforeRows && check.row > 0 {
            self.thirteen(&issues).map_or(Ok(()), Err)?;
        }
        if !check.accepted() {
            return Err([check.number, check.row]);
        }
        let refusal = self.refusal(&issues);
        let netted = self
            .rows(issues)
            .encode()
            .expect("no more rows than before");
        let wanted = match self {
            Wrong::TwelveOfBook => bytes.len(),
            _ => netted.len(),
        };
        let short = (room < wanted).then_some([12, 0]);
        let refusal = match self {
            Wrong::TwelveFirst => short.or(refusal),
            _ => refusal.or(short),
        };
        refusal.map_or(Ok(netted), Err)
    }

    /// How comparisons are counted.
    pub fn count(self) -> Count {
        match self {
            Wrong::Counted(count) => count,
            _ => Count::Right,
        }
    }

    /// The row that a refusal names, as it is told.
    pub fn told(self, bytes: &[u8], [number, row]: Refused) -> [u64; 5] {
        let legs = legs(bytes);
        let class = legs.get(row as usize).map_or(0, |leg| leg.class);
        let before = legs.iter().filter(|leg| leg.class < class).count() as u64;
        let row = match (self, number) {
            (Wrong::RowOfClass, 13 | 14) => row - before,
            _ => row,
        };
        [number, row, 0, 0, 0]
    }
}

/// The rows of a file that has them.
fn legs(bytes: &[u8]) -> Vec<Leg> {
    let classes = Book::decode(bytes).unwrap_or_default().classes;
    let rows = classes.into_iter().enumerate();
    let rows = rows.flat_map(|(class, rows)| rows.into_iter().map(move |row| (class, row)));
    let legs = rows
        .enumerate()
        .map(|(at, (class, row))| Leg { class, at, row });
    legs.collect()
}
