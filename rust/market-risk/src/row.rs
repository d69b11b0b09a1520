//! The rows that a book is built of.

/// The group of gold in foreign exchange.
pub const GOLD: u8 = 0;

/// An amount in thousands of the reporting currency, 1 to 1,000,000,000, and its side.
#[derive(Clone, Copy, Debug, PartialEq, Eq)]
pub enum Position {
    /// What is owned, or is to be received.
    Long(u32),
    /// What is owed, or was sold.
    Short(u32),
}

/// Who issued a bond, or what it counts as.
#[derive(Clone, Copy, Debug, PartialEq, Eq)]
#[non_exhaustive]
pub enum InterestKind {
    /// Government paper; the legs of swaps are this too.
    Government = 1,
    /// Qualifying paper.
    Qualifying = 2,
    /// Paper of all others.
    Other = 3,
}

/// What an equity position is in.
#[derive(Clone, Copy, Debug, PartialEq, Eq)]
#[non_exhaustive]
pub enum EquityKind {
    /// A share.
    Ordinary = 1,
    /// A share of a liquid and well-diversified portfolio.
    Diversified = 2,
    /// A broad index.
    Index = 3,
}

/// A row of a book. Its fields have the width that the file has for them, so that none is cut off; which values
/// are accepted the library says. Issue 0 is none.
#[derive(Clone, Copy, Debug, PartialEq, Eq)]
#[non_exhaustive]
pub enum Row {
    /// A bond, or the leg of a swap.
    Interest {
        /// 0 to 31.
        currency: u8,
        /// Whose paper it is.
        kind: InterestKind,
        /// To maturity or to the next fixing, 0 to 36,000.
        days: u16,
        /// In basis points, 0 to 10,000.
        coupon: u16,
        /// The issue number, or 0.
        issue: u16,
        /// The amount and its side.
        position: Position,
    },
    /// A floating-rate note of a qualifying issuer.
    FloatingRateNote {
        /// 0 to 31.
        currency: u8,
        /// Days to the next fixing, 0 to 360.
        fixing: u16,
        /// Days to final maturity, from the fixing's to 36,000.
        maturity: u16,
        /// The issue number, or 0.
        issue: u16,
        /// The amount and its side.
        position: Position,
    },
    /// A share or an index.
    Equity {
        /// The national market, 0 to 31.
        market: u8,
        /// What the position is in.
        kind: EquityKind,
        /// The issue number, or 0.
        issue: u16,
        /// The amount and its side.
        position: Position,
    },
    /// A currency against the reporting one, or gold.
    Exchange {
        /// 1 to 31, or [`GOLD`].
        currency: u8,
        /// The issue number, or 0.
        issue: u16,
        /// The amount and its side.
        position: Position,
    },
    /// A commodity.
    Commodity {
        /// 0 to 31.
        commodity: u8,
        /// To delivery, 0 to 36,000; 0 is stock.
        days: u16,
        /// The issue number, or 0.
        issue: u16,
        /// The amount and its side.
        position: Position,
    },
}

/// The kind of floating-rate notes.
const FLOATING: u8 = 4;

/// Class, 0 to 3; group and kind; days, coupon and issue; the position.
type Fields = (usize, [u8; 2], [u16; 3], Position);

impl Row {
    /// The fields in the file's order, with 0 in those that the class has not.
    fn fields(self) -> Fields {
        match self {
            Row::Interest {
                currency,
                kind,
                days,
                coupon,
                issue,
                position,
            } => (0, [currency, kind as u8], [days, coupon, issue], position),
            Row::FloatingRateNote {
                currency,
                fixing,
                maturity,
                issue,
                position,
            } => (0, [currency, FLOATING], [fixing, maturity, issue], position),
            Row::Equity {
                market,
                kind,
                issue,
                position,
            } => (1, [market, kind as u8], [0, 0, issue], position),
            Row::Exchange {
                currency,
                issue,
                position,
            } => (2, [currency, 0], [0, 0, issue], position),
            Row::Commodity {
                commodity,
                days,
                issue,
                position,
            } => (3, [commodity, 0], [days, 0, issue], position),
        }
    }

    /// The class, 0 to 3, and the row's 16 bytes.
    pub(crate) fn encode(self) -> (usize, [u8; 16]) {
        let (class, bytes, pairs, position) = self.fields();
        let (long, short) = match position {
            Position::Long(amount) => (amount, 0),
            Position::Short(amount) => (0, amount),
        };
        let mut row = [0; 16];
        row[..2].copy_from_slice(&bytes);
        row[2..8].copy_from_slice(pairs.map(u16::to_le_bytes).as_flattened());
        row[8..].copy_from_slice([long, short].map(u32::to_le_bytes).as_flattened());
        (class, row)
    }
}
