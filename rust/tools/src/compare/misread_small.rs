//! The second calculation with a wrong reading of the small bank, put in on purpose.

use super::trade::answer;
use crate::calls::{Calls, Second};
use books::{Book, Row};

/// What is wrong with a small bank's call. All else is the second calculation's.
#[derive(Clone, Copy, Debug, PartialEq)]
pub enum Wrong {
    /// 20 comes after the rows.
    AfterRows,
    /// A bad interest row is told instead of 20.
    BadInterestFirst,
    /// 20 comes before this number of the contents.
    Before(u64),
    /// Rows of this class, interest or equity, are left out and not refused.
    Ignored(usize),
    /// 20 names the first row that is not a small bank's.
    RowNamed,
    /// A refusal with 20 leaves a figure.
    FigureKept,
    /// A book refused at a row keeps a figure.
    LateFigureKept,
    /// 3% of the net.
    NetAtThree,
    /// 15% of the gross.
    GrossAtFifteen,
    /// 3% of the greater side.
    OneSideAtThree,
    /// Commodities by the maturity ladder.
    Ladder,
    /// Longs of one commodity are set against shorts of another.
    AcrossCommodities,
    /// The first commodity is taken for gold and left out.
    FirstLeftOut,
    /// The last commodity is left out.
    LastLeftOut,
    /// The days of commodities have no limit, since no sum looks at them.
    DaysUnlimited,
    /// Gold is added to the currencies.
    GoldAsCurrency,
    /// The total is of commodities alone.
    TotalWithoutExchange,
    /// The total is not written.
    TotalUnwritten,
    /// The charge of commodities looks at the side of the first row.
    Side,
    /// The charge of commodities looks at which row comes first.
    Order,
    /// The figure at this entry is dearer the longer the book is.
    Dear(usize),
    /// Long books are refused.
    LongRefused,
}

/// The longs and the shorts of each commodity.
fn sides(rows: &[Row]) -> [[u64; 2]; 32] {
    let mut sides = [[0; 2]; 32];
    for row in rows {
        let [long, short] = &mut sides[usize::from(row.group)];
        *long += u64::from(row.long);
        *short += u64::from(row.short);
    }
    sides
}

/// The book with its classes changed, or as it is where it has no rows.
fn with(book: &[u8], change: impl Fn(&mut [Vec<Row>; 4])) -> Vec<u8> {
    let Some(mut rows) = Book::decode(book) else {
        return book.to_vec();
    };
    change(&mut rows.classes);
    rows.encode().expect("no more rows than before")
}

impl Wrong {
    /// What one commodity costs, by its group and its longs and shorts.
    fn of_commodity(self, group: usize, [long, short]: [u64; 2]) -> u64 {
        let (net, gross) = (long.abs_diff(short), long + short);
        match self {
            Wrong::NetAtThree => 150_000 * net + 30_000 * net,
            Wrong::GrossAtFifteen => 150_000 * gross + 30_000 * gross,
            Wrong::OneSideAtThree => 150_000 * net + 30_000 * long.max(short),
            Wrong::FirstLeftOut if group == 0 => 0,
            Wrong::LastLeftOut if group == 31 => 0,
            _ => 150_000 * net + 30_000 * gross,
        }
    }

    /// What the commodities of an accepted book cost.
    fn commodities(self, book: &[u8]) -> u64 {
        let [.., rows] = Book::decode(book).unwrap_or_default().classes;
        let (sides, first) = (sides(&rows), rows.first().copied().unwrap_or_default());
        let each = |(group, sides): (usize, &[u64; 2])| self.of_commodity(group, *sides);
        let sum = sides.iter().enumerate().map(each).sum::<u64>();
        let all = |at: usize| sides.iter().map(|sides| sides[at]).sum::<u64>();
        match self {
            Wrong::Ladder => second::charge(book, &second::table()).commodity,
            Wrong::AcrossCommodities => self.of_commodity(1, [all(0), all(1)]),
            Wrong::Side => sum + u64::from(first.long),
            Wrong::Order => sum + u64::from(first.issue),
            _ => sum,
        }
    }

    /// Makes the figures of an accepted book wrong.
    fn misfigure(self, book: &[u8], out: &mut [u64; 6]) {
        out[4] = self.commodities(book);
        if self == Wrong::GoldAsCurrency {
            let as_currency = |row: &mut Row| row.group = row.group.max(1);
            let book = with(book, |classes| classes[2].iter_mut().for_each(as_currency));
            out[3] = second::small_bank(&book).exchange;
        }
        out[5] = out[3] + out[4];
        match self {
            Wrong::TotalWithoutExchange => out[5] = out[4],
            Wrong::Dear(entry) => out[entry] += (book.len() as u64).pow(2),
            Wrong::LongRefused if book.len() > 88 => *out = [2, 0, 0, 0, 0, 0],
            _ => (),
        }
    }

    /// Makes a refusal wrong: number, row, book.
    fn mistell(self, book: &[u8], out: &mut [u64; 6]) {
        let count = |at: usize| u64::from(u16::from_le_bytes([book[at], book[at + 1]]));
        let not_small = book.len() >= 8 && count(0) + count(2) > 0;
        let check = second::check(book);
        let bad_interest = !check.accepted() && not_small && check.row < count(0);
        match (self, out[0]) {
            (Wrong::AfterRows, 20) if !check.accepted() => {
                out[..3].copy_from_slice(&check.entries())
            }
            (Wrong::BadInterestFirst, 20) if bad_interest => {
                out[..3].copy_from_slice(&check.entries())
            }
            (Wrong::Before(before), number) if before == number && not_small => out[0] = 20,
            (Wrong::RowNamed, 20) => out[1] = 1,
            (Wrong::FigureKept, 20) => out[3] = 1,
            (Wrong::LateFigureKept, 4..=9) => out[5] = 1,
            _ => (),
        }
    }
}

/// A calculation with a wrong reading.
pub struct Misread {
    pub name: &'static str,
    pub wrong: Wrong,
}

impl Calls for Misread {
    fn name(&self) -> &'static str {
        self.name
    }
    fn check(&self, book: &[u8], out: &mut [u64; 3]) {
        Second.check(book, out);
    }
    fn part(&self, book: &[u8], class: usize, out: &mut [u64; 5]) {
        Second.part(book, class, out);
    }
    fn charge(&self, book: &[u8], table: &[u8], out: &mut [u64; 75]) {
        Second.charge(book, table, out);
    }
    fn interest_ladder(&self, book: &[u8], table: &[u8], group: usize, out: &mut [u64; 13]) {
        Second.interest_ladder(book, table, group, out);
    }
    fn commodity_ladder(&self, book: &[u8], group: usize, out: &mut [u64; 7]) {
        Second.commodity_ladder(book, group, out);
    }
    fn small_bank(&self, book: &[u8], out: &mut [u64; 6]) {
        let total = out[5];
        let read = match self.wrong {
            Wrong::Ignored(class) => with(book, |classes| classes[class].clear()),
            Wrong::DaysUnlimited => with(book, |classes| {
                let rows = classes[3].iter_mut();
                rows.for_each(|row| row.days = row.days.min(36_000));
            }),
            _ => book.to_vec(),
        };
        Second.small_bank(&read, out);
        match out[0] {
            0 => self.wrong.misfigure(&read, out),
            _ => self.wrong.mistell(book, out),
        }
        if self.wrong == Wrong::TotalUnwritten {
            out[5] = total;
        }
    }
    fn join(&self, a: &[u8], b: &[u8], out: &mut [u8], result: &mut [u64; 4]) {
        Second.join(a, b, out, result);
    }
    fn net(&self, book: &[u8], out: &mut [u8], result: &mut [u64; 5]) {
        Second.net(book, out, result);
    }
    fn offset(&self, book: &[u8], out: &mut [u8], result: &mut [u64; 4]) {
        Second.offset(book, out, result);
    }
    fn net_and_offset(&self, book: &[u8], out: &mut [u8], result: &mut [u64; 5]) {
        Second.net_and_offset(book, out, result);
    }
    fn shortest(&self, book: &[u8], out: &mut [u8], result: &mut [u64; 5]) {
        Second.shortest(book, out, result);
    }
    fn dearest(&self, rows: usize, most: usize, out: &mut [u8], result: &mut [u64; 5]) {
        Second.dearest(rows, most, out, result);
    }
    fn options(&self, table: &[u8], out: &mut [u8], result: &mut [u64; 17]) {
        Second.options(table, out, result);
    }
    fn least_trade(
        &self,
        book: &[u8],
        table: &[u8],
        group: usize,
        band: usize,
        side: usize,
        limit: u64,
        out: &mut [u64; 5],
    ) {
        *out = answer(book, table, [group, band, side], limit);
    }
    fn table(&self, out: &mut [u8; 36]) {
        Second.table(out);
    }
}
