//! An option, and whether it is accepted.

/// The greatest amount of an underlying, and the greatest delta.
const MOST_AMOUNT: u32 = 1_000_000;
const MOST_DELTA: u16 = 10_000;

/// What a class allows: its first kind, how many more there are, and its days.
struct Limits {
    first: u8,
    more: u8,
    days: u16,
}

/// The limits of equity, foreign exchange and commodities; the last is no class.
static LIMITS: [Limits; 4] = [
    limits(1, 2, 0),
    limits(0, 0, 0),
    limits(0, 0, 36_000),
    limits(0, 0, 0),
];

const fn limits(first: u8, more: u8, days: u16) -> Limits {
    Limits { first, more, days }
}

/// The words of an option: class, group, right, kind, amount; delta, gamma, vega, volatility; days.
#[derive(Clone, Copy)]
pub struct Opt {
    head: u64,
    greeks: u64,
    days: u16,
}

impl Opt {
    #[inline(always)]
    pub fn decode(bytes: &[u8; 18]) -> Opt {
        let word = |at: usize| u64::from_le_bytes(bytes[at..at + 8].try_into().expect("8 bytes"));
        Opt {
            head: word(0),
            greeks: word(8),
            days: u16::from_le_bytes([bytes[16], bytes[17]]),
        }
    }

    /// The byte at a place of the first word.
    #[inline(always)]
    fn byte(self, at: u32) -> u8 {
        (self.head >> (8 * at)) as u8
    }

    /// The two bytes at a place of the second word.
    #[inline(always)]
    fn pair(self, at: u32) -> u16 {
        (self.greeks >> (16 * at)) as u16
    }

    /// The class of an accepted option, from 0 for equity to 2; below 4 for any other.
    #[inline(always)]
    pub fn class(self) -> usize {
        usize::from(self.byte(0).wrapping_sub(2) & 3)
    }

    /// The bit at which the count of an accepted option's class begins in the contents of a book.
    #[inline(always)]
    pub fn count(self) -> usize {
        16 + 16 * self.class()
    }

    /// The group of an accepted option, below 32.
    #[inline(always)]
    pub fn group(self) -> usize {
        usize::from(self.byte(1) & 31)
    }

    /// The kind of an accepted option, below 4.
    #[inline(always)]
    pub fn kind(self) -> usize {
        usize::from(self.byte(3) & 3)
    }

    #[inline(always)]
    pub fn delta(self) -> u16 {
        self.pair(0)
    }

    #[inline(always)]
    pub fn days(self) -> u16 {
        self.days
    }

    /// The amount of the underlying.
    #[inline(always)]
    fn underlying(self) -> u64 {
        self.head >> 32
    }

    /// The side of the row: 0 long for bought calls and sold puts, 1 short.
    #[inline(always)]
    pub fn side(self) -> usize {
        let right = self.byte(2);
        usize::from((right ^ right >> 1) & 1)
    }

    /// 1 when bought, and -1 when sold.
    #[inline(always)]
    pub fn sign(self) -> i64 {
        1 - i64::from(self.byte(2) & 2)
    }

    /// The amount times gamma.
    #[inline(always)]
    pub fn gamma(self) -> i64 {
        self.underlying() as i64 * i64::from(self.pair(1))
    }

    /// Vega times volatility.
    #[inline(always)]
    pub fn vega(self) -> i64 {
        i64::from(self.pair(2)) * i64::from(self.pair(3))
    }

    /// The amount of the row, rounded up. `div_ceil` would compare once more.
    #[inline(always)]
    #[allow(clippy::manual_div_ceil)]
    pub fn amount(self) -> u64 {
        (self.underlying() * u64::from(self.delta()) + 9_999) / 10_000
    }

    /// The 16 bytes of the row: group, kind, days, and the amount on its side.
    #[inline(always)]
    pub fn row(self, amount: u64) -> [u8; 16] {
        let group = u128::from(self.byte(1));
        let kind = u128::from(self.byte(3)) << 8;
        let days = u128::from(self.days) << 16;
        let amounts = u128::from(amount << (32 * self.side())) << 64;
        (group | kind | days | amounts).to_le_bytes()
    }

    /// Whether every field is in its range: no branch.
    #[inline(always)]
    pub fn clean(self) -> bool {
        let limits = &LIMITS[self.class()];
        let bad = (self.byte(0).wrapping_sub(2) > 2)
            | (self.byte(1) > 31)
            | (self.byte(2) > 3)
            | (self.byte(3).wrapping_sub(limits.first) > limits.more)
            | ((self.underlying() as u32).wrapping_sub(1) >= MOST_AMOUNT)
            | (self.delta() > MOST_DELTA)
            | (self.days > limits.days);
        !bad
    }
}
