//! Readings of options, right or wrong on purpose.

use super::reading_fields::Field;

/// What is wrong with a reading.
#[derive(Clone, Copy, Debug, PartialEq)]
pub enum Wrong {
    /// Nothing: the reading is right.
    Nothing,

    // Gamma.
    /// Its sign goes by call or put.
    GammaByCall,
    /// Each option's impact is rounded up.
    EachRounded,
    /// A half mil is rounded down.
    HalvesDown,
    /// Sums above zero are charged too.
    PositiveCharged,
    /// What is sold is charged, whatever is bought.
    SoldAlone,
    /// The underlyings of a class move by another per cent.
    Moves(u8, u64),
    /// Options of delta 0 are left out.
    NoGammaAtZero,
    /// The groups of a class are one.
    GammaOfGroups,
    /// The classes of a group are one.
    GammaOfClasses,
    /// Cut to 32 bits.
    NarrowGamma,

    // Vega.
    /// Its sign goes by call or put.
    VegaByCall,
    /// Sums below zero alone are charged.
    NegativeAlone,
    /// Sums above zero alone are charged.
    PositiveAlone,
    /// Bought and sold are added.
    WithoutSigns,
    /// The whole volatility, not a quarter of it.
    WholeVolatility,
    /// Rounded up to whole thousands.
    WholeThousands,
    /// Options of delta 0 are left out.
    NoVegaAtZero,
    /// The groups of a class are one.
    VegaOfGroups,
    /// The classes of a group are one.
    VegaOfClasses,
    /// Cut to 32 bits.
    NarrowVega,

    // The figures of the book.
    /// Gamma is added to the total.
    GammaInTotal,
    /// Vega is added to the total.
    VegaInTotal,
    /// Books of six rows and more cost one more, by the charge call too.
    DearMany,

    // Rows.
    /// Options of this right are on the other side.
    Side(u8),
    /// Amounts are rounded down.
    RoundedDown,
    /// Amounts are rounded to the nearest.
    Nearest,
    /// Whole amounts are one too high.
    OneTooHigh,
    /// Amount times delta is cut to 32 bits.
    NarrowProduct,
    /// An option of delta 0 has a row of nothing.
    RowAtZero,
    /// The rows of a class from the last option to the first.
    Reversed,
    /// The rows of a class by their group.
    ByGroup,
    /// The long rows of a class before the short ones.
    LongsFirst,
    /// The next group.
    OtherGroup,
    /// All shares are ordinary.
    OtherKind,
    /// All commodities are at hand.
    OtherDays,
    /// The delta as a coupon.
    CouponSet,
    /// The row's number as an issue, from 1.
    IssueSet,

    // Ranges.
    /// The least of a field is so much more.
    Least(Field, i64),
    /// The most of a field is so much more.
    Most(Field, i64),
    /// A field is cut to so many bits.
    Cut(Field, u32),

    // 16.
    /// 1,000 options are too many.
    FullRefused,
    /// 1,001 options are not.
    OneMoreTaken,
    /// Any number of options is taken.
    LengthAlone,
    /// The count is cut to its low byte.
    NarrowCount,
    /// Bytes past the last option are passed over.
    LongerTaken,
    /// No options are refused.
    NoneRefused,

    // 17, and the order of refusals.
    /// A wrong length is told as 17.
    SeventeenForLength,
    /// Options that are there are looked at before the length.
    SeventeenFirst,
    /// An output too short for the options is told before a bad one.
    TwelveFirst,
    /// The row is counted from 1.
    RowFromOne,
    /// The row is counted in its class.
    RowOfClass,
    /// The last bad row is told.
    LastRow,
    /// The row is not told.
    NoRow,

    // 12 and outputs.
    /// The output must be so many bytes longer.
    Twelve(i64),
    /// The output must have room for a row of each option.
    TwelveByOptions,
    /// With 12 the figures are told.
    FiguresKept,
    /// With 17 the figures of the options before are told.
    FiguresBefore,
    /// With 12 the length is told.
    LengthKept,
    /// With 12 a byte of the output is changed.
    RefusedWrites,
    /// With 12 the book is written as far as there is room.
    Truncated,
    /// With 17 the book of the options before is written.
    RowsBefore,
    /// Bytes past the book are made zero.
    Cleared,
    /// A byte past the book is changed.
    PastTheEnd,
}
