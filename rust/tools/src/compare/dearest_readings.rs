//! A reading of the dearest book, right or wrong on purpose.

use books::{Book, Row};

/// What is wrong with the dearest book.
#[derive(Clone, Copy, Debug, PartialEq)]
pub enum Wrong {
    /// Nothing: the reading is right.
    Nothing,
    /// The book has one row fewer.
    OneRowFewer,
    /// Government paper.
    Government,
    /// Qualifying paper.
    Qualifying,
    /// A floating-rate note of a year to its fixing.
    Floating,
    /// 7,200 days, a band nearer.
    NearerBand,
    /// A coupon of 300, in the other column.
    Coupon300,
    /// The largest amount and one more in the last row.
    OneMore,
    /// One less than the largest amount in each row.
    OneLess,
    /// Every second row is short.
    HalfShort,
    /// Shares in the place of interest.
    Shares,
    /// Stocks of a commodity in the place of interest.
    Commodities,
    /// Each row in another currency, which costs as much.
    Currencies,
    /// All rows short, which cost as much.
    AllShort,
    /// Rows numbered as issues, which cost as much.
    Issues,
    /// The total without specific risk.
    WithoutSpecific,
    /// The total without general risk.
    WithoutGeneral,
    /// The total at the commodities' rate.
    CommodityRate,
    /// The total of one row.
    OneRowTotal,
    /// The total in 32 bits.
    NarrowTotal,
    /// 12 is tried before 22.
    TwelveFirst,
    /// 4,000 rows are refused.
    FullRefused,
    /// The largest amount of all is refused.
    LargestRefused,
    /// A largest amount of 0 is taken.
    ZeroTaken,
    /// More rows are taken where the output is long enough.
    MoreTaken,
    /// The rows are cut to 16 bits.
    NarrowRows,
    /// The amount is cut to 32 bits.
    NarrowAmount,
    /// No rows are refused with 22.
    NoRowsRefused,
    /// The total is told on a refusal too.
    TotalKept,
    /// The length is told on a refusal too.
    LengthKept,
    /// The output must be so many bytes longer.
    Twelve(i64),
    /// Bytes past the book are made zero.
    Cleared,
    /// A byte past the book is changed.
    PastTheEnd,
    /// With 12 a byte of the output is changed.
    RefusedWrites,
    /// With 12 the rows are written as far as there is room.
    Truncated,
    /// The number of rows is told as the row.
    RowTold,
}

/// The row of the dearest book.
fn dearest() -> Row {
    Row::default().with_kind(3).with_days(36_000)
}

impl Wrong {
    /// The row with this place of so many, with its amount, by the reading.
    fn row(self, at: usize, rows: usize, most: u32) -> Row {
        let row = dearest();
        let row = match self {
            Wrong::Government => row.with_kind(1),
            Wrong::Qualifying => row.with_kind(2),
            Wrong::Floating => row.with_kind(4).with_days(360).with_coupon(36_000),
            Wrong::NearerBand => row.with_days(7_200),
            Wrong::Coupon300 => row.with_coupon(300),
            Wrong::Shares => Row::default().with_kind(1),
            Wrong::Commodities => Row::default(),
            Wrong::Currencies => row.with_group((at % 32) as u8),
            Wrong::Issues => row.with_issue(at as u16),
            _ => row,
        };
        let amount = match self {
            Wrong::OneMore if at + 1 == rows => most + 1,
            Wrong::OneLess => most.saturating_sub(1),
            _ => most,
        };
        let short = self == Wrong::AllShort || self == Wrong::HalfShort && at % 2 == 1;
        let row = row.with_sides(amount, 0);
        if short {
            row.mirrored()
        } else {
            row
        }
    }

    /// The book of so many rows, by the reading.
    pub fn book(self, rows: usize, most: u32) -> Vec<u8> {
        let class = match self {
            Wrong::Shares => 1,
            Wrong::Commodities => 3,
            _ => 0,
        };
        let rows = match self {
            Wrong::OneRowFewer => rows.saturating_sub(1),
            _ => rows,
        };
        let mut book = Book::default();
        book.classes[class] = (0..rows).map(|at| self.row(at, rows, most)).collect();
        book.encode().expect("at most 65,535 rows")
    }

    /// The total that is told of the book.
    pub fn total(self, rows: usize, most: usize, book: &[u8]) -> u64 {
        let units = rows as u64 * most as u64;
        match self {
            Wrong::WithoutSpecific => 125_000 * units,
            Wrong::WithoutGeneral => 80_000 * units,
            Wrong::CommodityRate => 186_000 * units,
            Wrong::OneRowTotal => 205_000 * most as u64,
            Wrong::NarrowTotal => u64::from((205_000 * units) as u32),
            _ => second::charge(book, &second::table()).total,
        }
    }

    /// The numbers that are read of those that are given.
    pub fn read(self, rows: usize, most: usize) -> (usize, usize) {
        match self {
            Wrong::NarrowRows => (usize::from(rows as u16), most),
            Wrong::NarrowAmount => (rows, most as u32 as usize),
            _ => (rows, most),
        }
    }

    /// Whether the numbers are refused, with an output of so many bytes.
    pub fn refused(self, rows: usize, most: usize, room: usize) -> bool {
        let many = match self {
            Wrong::FullRefused => rows >= 4_000,
            Wrong::MoreTaken => rows > 4_095 || rows > 4_000 && room < 8 + 16 * rows,
            Wrong::NoRowsRefused => rows == 0 || rows > 4_000,
            _ => rows > 4_000,
        };
        let least = usize::from(self != Wrong::ZeroTaken);
        let largest = 1_000_000_000 - usize::from(self == Wrong::LargestRefused);
        many || !(least..=largest).contains(&most)
    }

    /// Writes the book, as far as there is room, and what the reading does besides.
    pub fn write(self, book: &[u8], out: &mut [u8]) {
        let (front, rest) = out.split_at_mut(book.len().min(out.len()));
        front.copy_from_slice(&book[..front.len()]);
        match self {
            Wrong::Cleared => rest.fill(0),
            Wrong::PastTheEnd => rest.iter_mut().take(1).for_each(|byte| *byte ^= 1),
            _ => (),
        }
    }
}
