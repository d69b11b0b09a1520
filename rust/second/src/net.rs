//! Netting one issue (document 02, P1). The Amendment allows it: long and short positions in the
//! same issue may be set off (A.1, 3, 10 and 20; A.2, 1 and 6).

use crate::book::{read, Class, Refusal, Row, LIMIT};
use crate::comparisons::comparisons;
use crate::written::{file, write};
use std::collections::HashMap;

/// What netting gives, with offsetting after it or without: the refusal, or the length of the book
/// that is written and how many comparisons netting takes.
#[derive(Clone, Copy, Debug, Default, PartialEq, Eq)]
pub struct Netted {
    pub refusal: Refusal,
    pub length: u64,
    pub comparisons: u64,
}

/// What rows are netted by: their issue, or, where they have none, each row by itself.
#[derive(Clone, Copy, PartialEq, Eq, Hash)]
enum Issue {
    Numbered(Class, u64),
    Alone(usize),
}

/// The rows of a book, and of each issue the numbers of its rows in file order.
struct Issues {
    rows: Vec<Row>,
    members: HashMap<Issue, Vec<usize>>,
}

/// The issue of the row with this number.
fn issue(at: usize, row: &Row) -> Issue {
    match row.issue {
        0 => Issue::Alone(at),
        number => Issue::Numbered(row.class, number),
    }
}

/// What the rows of one issue must have in common. Of a floating-rate note the coupon is the
/// final maturity (P5).
fn terms(row: &Row) -> (usize, u8, i128, i128) {
    (row.group, row.kind, row.days, row.coupon)
}

impl Issues {
    fn of(rows: Vec<Row>) -> Issues {
        let mut members: HashMap<Issue, Vec<usize>> = HashMap::new();
        for (at, row) in rows.iter().enumerate() {
            members.entry(issue(at, row)).or_default().push(at);
        }
        Issues { rows, members }
    }

    /// The rows of a row's issue, in file order.
    fn with(&self, at: usize) -> &[usize] {
        &self.members[&issue(at, &self.rows[at])]
    }

    /// The first of them.
    fn first(&self, at: usize) -> usize {
        self.with(at)[0]
    }

    /// The rows in whose place a netted row may stand.
    fn places(&self) -> Vec<usize> {
        let all = 0..self.rows.len();
        all.filter(|at| self.first(*at) == *at).collect()
    }

    /// Longs less shorts of the rows of a row's issue.
    fn net(&self, at: usize) -> i128 {
        self.with(at).iter().map(|at| self.rows[*at].net()).sum()
    }

    /// The first row whose terms are not those of the first of its issue (13); else the first place
    /// of a net that no row may have (14).
    fn refusal(&self) -> Refusal {
        let differs = |at: &usize| terms(&self.rows[*at]) != terms(&self.rows[self.first(*at)]);
        let over = |at: &usize| self.net(*at).abs() > LIMIT;
        let (differing, large) = (
            (0..self.rows.len()).find(differs),
            self.places().into_iter().find(over),
        );
        let refused = |number, at| Refusal {
            number,
            row: at as u64,
            book: 0,
        };
        match (differing, large) {
            (Some(at), _) => refused(13, at),
            (None, Some(at)) => refused(14, at),
            (None, None) => Refusal::NONE,
        }
    }

    /// The bytes of the netted book: of a file whose issues are not refused.
    fn bytes(&self, book: &[u8]) -> Vec<u8> {
        let row = |at: usize| {
            let net = self.net(at);
            let (long, short) = (net.max(0) as u32, (-net).max(0) as u32);
            let amounts = [long.to_le_bytes(), short.to_le_bytes()].concat();
            [&book[8 + 16 * at..16 + 16 * at], &amounts].concat()
        };
        let mut kept = self.places();
        kept.retain(|at| self.net(*at) != 0);
        let kept = kept.into_iter();
        let rows: Vec<_> = kept.map(|at| (self.rows[at].class, row(at))).collect();
        file(&rows)
    }
}

/// The netted book of a book, or why there is none.
pub fn netted(book: &[u8]) -> Result<Vec<u8>, Refusal> {
    let issues = Issues::of(read(book)?);
    match issues.refusal() {
        Refusal::NONE => Ok(issues.bytes(book)),
        refusal => Err(refusal),
    }
}

/// Writes the netted book to the front of `out`; the bytes past it keep their values.
pub fn net(book: &[u8], out: &mut [u8]) -> Netted {
    outcome(book, netted(book), out)
}

/// Writes what became of a book, if anything did, and counts the comparisons of netting it.
pub fn outcome(book: &[u8], left: Result<Vec<u8>, Refusal>, out: &mut [u8]) -> Netted {
    match left.and_then(|bytes| write(&bytes, out)) {
        Err(refusal) => Netted {
            refusal,
            ..Netted::default()
        },
        Ok(length) => Netted {
            refusal: Refusal::NONE,
            length,
            comparisons: comparisons(book),
        },
    }
}
