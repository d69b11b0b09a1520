//! The columns of numbers: what each is called, counts and may be.

use super::Unit;

/// A column of whole numbers, as messages tell of it.
#[derive(Clone, Copy, Debug, PartialEq, Eq)]
pub struct Column<'a> {
    /// Its name in the header.
    pub name: &'a str,
    /// What it holds, where the name says something else.
    pub holds: &'a str,
    pub unit: Unit,
    /// What is accepted, where there is a most.
    pub range: &'a str,
    /// Whether an empty field is 0.
    pub may_be_empty: bool,
    /// What 0 stands for, told of an empty field.
    pub zero: &'a str,
    /// What to write in the place of a number below zero.
    pub below_zero: &'a str,
    /// The largest number that looks like one of another unit, and is taken in four digits alone.
    pub doubtful: u64,
}

/// A column in which a number must stand.
pub const fn column<'a>(name: &'a str, unit: Unit, range: &'a str) -> Column<'a> {
    Column {
        name,
        holds: "",
        unit,
        range,
        may_be_empty: false,
        zero: "",
        below_zero: "",
        doubtful: 0,
    }
}

/// A column whose empty fields are 0.
const fn optional(name: &'static str, unit: Unit, range: &'static str) -> Column<'static> {
    Column {
        may_be_empty: true,
        ..column(name, unit, range)
    }
}

pub const GROUP: Column = column("group", Unit::Plain, "0 to 31");
pub const ISSUE: Column = optional("issue", Unit::Plain, "0 to 65,535");

/// Days of fixed-rate paper.
pub const DAYS: Column = column("days", Unit::Days, "0 to 36,000");

/// Days of a commodity.
pub const DELIVERY: Column = Column {
    zero: "0 for stock",
    ..DAYS
};

/// Days of a floating-rate note, and what stands in the place of its coupon.
pub const FIXING: Column = Column {
    holds: " (to fixing)",
    range: "0 to 360",
    ..DAYS
};
pub const FINAL: Column = Column {
    name: "coupon",
    holds: " (days to final maturity)",
    doubtful: 30,
    ..DAYS
};

/// Days and coupons of rows that have none.
pub const NO_DAYS: Column = optional("days", Unit::Nothing, "0");
pub const NO_COUPON: Column = optional("coupon", Unit::Nothing, "0");

/// Days and coupons of rows whose class is not known.
pub const ANY_DAYS: Column = optional("days", Unit::Days, "0 to 36,000");
pub const ANY_COUPON: Column = optional("coupon", Unit::BasisPoints, "0 to 36,000");

/// What stands in the place of the coupon where the kind is not known.
pub const SOME_COUPON: Column = column("coupon", Unit::Plain, "0 to 36,000");

/// Coupons of 1 to 20 look like per cents, as final maturities of 1 to 30 look like years.
pub const COUPON: Column = Column {
    zero: "0 where there is none",
    doubtful: 20,
    ..column("coupon", Unit::BasisPoints, "0 to 10,000")
};

/// The two amounts of a row. They must be there also where they are 0: an empty one may have been lost.
pub const LONG: Column = Column {
    zero: "0 where there is none",
    below_zero: "a long below zero is a short",
    ..column("long", Unit::Thousands, "0 to 1,000,000,000")
};
pub const SHORT: Column = Column {
    name: "short",
    below_zero: "write it without its sign if a short is meant; a short below zero is a long",
    ..LONG
};

/// The amount of an option's underlying.
pub const AMOUNT: Column = Column {
    below_zero: "the column right tells what is sold",
    ..column("amount", Unit::Thousands, "1 to 1,000,000")
};

/// Deltas and volatilities of 1 to 100 look like whole ones, or per cents.
pub const DELTA: Column = Column {
    below_zero: "write it without its sign, in ten-thousandths: 0.5 is 5000",
    doubtful: 100,
    ..column("delta", Unit::TenThousandths, "0 to 10,000")
};
pub const VOLATILITY: Column = Column {
    doubtful: 100,
    ..column("volatility", Unit::Hundredths, "0 to 65,535")
};

/// Gamma and vega, whose signs are those of the right.
pub const GAMMA: Column = Column {
    name: "gamma",
    holds: " (change of delta for a move of 1%)",
    range: "0 to 65,535",
    below_zero: SOLD,
    doubtful: 0,
    ..DELTA
};
pub const VEGA: Column = Column {
    below_zero: SOLD,
    ..column("vega", Unit::ThousandsAPoint, "0 to 65,535")
};

/// What is told of a gamma or vega below zero.
const SOLD: &str = "a sold option's is: let the column right say so, and write it without its sign";
