//! Options by the delta-plus method: the table is checked and the rows of each class are counted in one
//! pass; in a second each option is written to its place and added to its sums. No branch depends on an
//! accepted option but on whether it gives a row.

use crate::book::Bad;
use crate::option::Opt;
use crate::pass::{Commodity, Sides};
use crate::tables::{cell, COMMODITY, EQUITY};
use crate::{fill, ladders};

/// The bytes of one option, and the most of them.
const BYTES: usize = 18;
const MOST: usize = 1_000;

/// The place of the commodities among the classes.
const COMMODITIES: usize = 2;

/// The square of the move that gamma is charged for, in per cent, in equity, foreign exchange and
/// commodities.
const SQUARES: [u64; 3] = [64, 64, 225];

/// Where the sides of equity, foreign exchange and commodities begin among all, and by how many places
/// their groups are apart, as a power of two: a commodity has bands.
const STARTS: [usize; 4] = [0, 32, 64, 0];
const APART: [u32; 4] = [0, 0, 3, 0];

/// Everything that the figures are made of.
struct Sums {
    /// The sides of the 32 markets and currencies, then those of the bands of 32 commodities.
    sides: [Commodity; 40],
    /// By class and group, with their signs: amounts times gammas, and vegas times volatilities.
    gammas: [[i64; 32]; 4],
    vegas: [[i64; 32]; 4],
    equity_specific: u64,
    /// The groups with options on commodities, a bit each.
    commodities: u32,
}

impl Sums {
    const ZERO: Sums = Sums {
        sides: [[[0; 2]; 8]; 40],
        gammas: [[0; 32]; 4],
        vegas: [[0; 32]; 4],
        equity_specific: 0,
        commodities: 0,
    };

    /// Adds an accepted option to the sums of its group. Where there are no bands, days are 0.
    #[inline(always)]
    fn add(&mut self, option: Opt, amount: u64) {
        let (class, group, sign) = (option.class(), option.group(), option.sign());
        let band = usize::from(COMMODITY[cell(option.days())] & 7);
        let place = STARTS[class] + (group << APART[class]) + band;
        self.sides.as_flattened_mut()[place][option.side()] += amount;
        self.gammas[class][group] += sign * option.gamma();
        self.vegas[class][group] += sign * option.vega();
    }

    /// Writes the row of each option to the next place of its class, and adds the option. Sums over all
    /// groups are kept in local variables, so that they stay in registers.
    #[inline(always)]
    fn take(&mut self, rows: &[u8], mut next: u64, out: &mut [u8]) {
        let (mut equity_specific, mut commodities) = (0, 0);
        for option in each(rows) {
            let amount = option.amount();
            if amount > 0 {
                let at = usize::from((next >> option.count()) as u16);
                out[at..at + 16].copy_from_slice(&option.row(amount));
                next += 16 << option.count();
            }
            self.add(option, amount);
            equity_specific += amount * EQUITY[option.kind()];
            commodities |= u32::from(option.class() == COMMODITIES) << option.group();
        }
        (self.equity_specific, self.commodities) = (equity_specific, commodities);
    }

    /// The nets of the 32 groups that begin at a place.
    #[inline(always)]
    fn nets(&self, start: usize) -> [i64; 32] {
        let net = |sides: Sides| sides[0] as i64 - sides[1] as i64;
        let sides = &self.sides.as_flattened()[start..start + 32];
        std::array::from_fn(|group| net(sides[group]))
    }

    /// The six charges of the book.
    #[inline(always)]
    fn charges(&self) -> [u64; 6] {
        let bands = self.sides.last_chunk().expect("32 of 40");
        [
            0,
            0,
            100 * self.equity_specific,
            ladders::equity(&self.nets(STARTS[0])),
            ladders::exchange(&self.nets(STARTS[1])),
            ladders::commodities(bands, self.commodities),
        ]
    }

    /// The gamma charge of a class: what is below zero in each group, in halves, rounded up.
    #[inline(always)]
    fn gamma(&self, class: usize) -> u64 {
        let halves = |sum: &i64| 0.max(-*sum) as u64 * SQUARES[class];
        let groups = self.gammas[class].iter();
        groups.map(|sum| halves(sum).div_ceil(2)).sum()
    }

    /// The vega charge of a class.
    #[inline(always)]
    fn vega(&self, class: usize) -> u64 {
        let groups = self.vegas[class].iter();
        2_500 * groups.map(|sum| sum.unsigned_abs()).sum::<u64>()
    }

    /// Every figure, behind the length of the book.
    #[inline(always)]
    fn figures(&self, length: usize) -> [u64; 14] {
        let mut figures = [0; 14];
        figures[0] = length as u64;
        for class in 0..3 {
            figures[1 + class] = self.gamma(class);
            figures[4 + class] = self.vega(class);
        }
        let charges = self.charges();
        figures[7..13].copy_from_slice(&charges);
        figures[13] = charges.iter().sum();
        figures
    }
}

/// The options of a table, each 18 bytes: refusal 16.
#[inline(always)]
fn open(table: &[u8]) -> Result<&[u8], Bad> {
    let split = table.split_first_chunk::<2>();
    let whole = |(count, rows): &(&[u8; 2], &[u8])| {
        let count = usize::from(u16::from_le_bytes(**count));
        count <= MOST && rows.len() == BYTES * count
    };
    let (_, rows) = split.filter(whole).ok_or(Bad { number: 16, row: 0 })?;
    Ok(rows)
}

/// Every option of a table.
#[inline(always)]
fn each(rows: &[u8]) -> impl Iterator<Item = Opt> + '_ {
    let rows = rows.chunks_exact(BYTES);
    rows.map(|bytes| Opt::decode(bytes.try_into().expect("chunks of 18 bytes")))
}

/// The contents of the book, which count the rows that each class gives, or the first option that is
/// bad: refusal 17. A count has two bytes, and no count passes 1,000.
#[inline(always)]
fn contents(rows: &[u8]) -> Result<u64, Bad> {
    let mut counts = 0;
    for (row, option) in each(rows).enumerate() {
        if !option.clean() {
            return Err(Bad { number: 17, row });
        }
        counts += u64::from(option.delta() > 0) << option.count();
    }
    Ok(counts)
}

/// Where the rows of each class begin in a book with these contents, in the places of their counts, and
/// the length of the book.
#[inline(always)]
fn starts(contents: u64) -> (u64, usize) {
    let (mut starts, mut length) = (0, 8);
    for at in [0, 16, 32, 48] {
        starts |= length << at;
        length += 16 * (contents >> at & 0xffff);
    }
    (starts, length as usize)
}

/// Writes the book and gives every figure.
#[inline(always)]
fn written(table: &[u8], out: &mut [u8]) -> Result<[u64; 14], Bad> {
    let rows = open(table)?;
    let contents = contents(rows)?;
    let (next, length) = starts(contents);
    let out = out.get_mut(..length).ok_or(Bad { number: 12, row: 0 })?;
    out[..8].copy_from_slice(&contents.to_le_bytes());
    let mut sums = Sums::ZERO;
    sums.take(rows, next, out);
    Ok(sums.figures(length))
}

/// Number, row, book; the length of the book of the deltas at the front of `out`; gamma of equity,
/// foreign exchange and commodities; vega of the same; the six charges of the book and its total.
pub fn options(table: &[u8], out: &mut [u8], result: &mut [u64; 17]) {
    fill(result, written(table, out));
}
