//! Readings of the least trade, right or wrong on purpose.

use super::search::answer;
use super::turns::MOST;
use super::Trade;
use books::tables::Table;

/// What is wrong with a reading.
#[derive(Clone, Copy, Debug, PartialEq)]
pub enum Wrong {
    /// Nothing: the reading is right.
    Nothing,
    /// The charge must be less than the limit.
    LessThan,
    /// An amount of 0 is told as none.
    ZeroAsNone,
    /// None is told as an amount of 0.
    NoneAsZero,
    /// 1,000,000 is not tried.
    MillionLeftOut,
    /// The amount is one too many.
    OneTooMany,
    /// The amount is one too few.
    OneTooFew,
    /// Long and short are exchanged.
    OtherSide,
    /// The next band.
    NextBand,
    /// The weight of the next band.
    NextWeight,
    /// The next currency.
    NextCurrency,
    /// The amount is added as if it were weighted.
    AddedAsWeighted,
    /// Document 01's table, whatever is loaded.
    StandardTable,
    /// 21 is told after the book's refusals.
    AfterBook,
    /// 18 and 19 are told after 21.
    TableLater,
    /// Band 15 is taken as the last.
    BandTaken,
    /// Side 2 is taken as short.
    SideTaken,
    /// On a refusal the amount is kept as it was.
    AmountKept,
}

/// The table with the weight of the next band in a band, where it is accepted.
fn next_weight(table: &[u8], band: usize) -> Vec<u8> {
    let Some(mut other) = Table::decode(table).filter(|_| band < 14) else {
        return table.to_vec();
    };
    other.weights[band] = other.weights[band + 1];
    match second::read_table(table) {
        Ok(_) => other.encode(),
        Err(_) => table.to_vec(),
    }
}

/// The amount that has a weight of its own for one that is to be weighted.
fn as_weighted(book: &[u8], table: &[u8], trade: &Trade, amount: u64) -> Option<u64> {
    let weight = u64::from(Table::decode(table)?.weights[trade.band]);
    let charge = |amount| trade.charge(book, table, amount).ok();
    let before = amount.checked_sub(1)?;
    let (over, step) = (
        charge(before)? - trade.limit,
        charge(before)? - charge(amount)?,
    );
    let parts = (u128::from(over) * u128::from(weight)).div_ceil(step.into()) as u64;
    Some(before * weight + parts)
}

impl Wrong {
    /// The place and the table that the reading looks at.
    fn looks_at(self, table: &[u8], place: [usize; 3]) -> (Vec<u8>, [usize; 3]) {
        let [group, band, side] = place;
        let place = match self {
            Wrong::OtherSide if side < 2 => [group, band, 1 - side],
            Wrong::NextBand if band < 14 => [group, band + 1, side],
            Wrong::NextCurrency if group < 31 => [group + 1, band, side],
            Wrong::BandTaken if band == 15 => [group, 14, side],
            Wrong::SideTaken if side == 2 => [group, band, 1],
            _ => place,
        };
        let accepted = second::read_table(table).is_ok();
        let table = match self {
            Wrong::NextWeight => next_weight(table, band),
            Wrong::StandardTable if accepted => second::table().to_vec(),
            _ => table.to_vec(),
        };
        (table, place)
    }

    /// What the reading makes of the right answer to an accepted call.
    fn told(self, least: Option<u64>) -> Option<u64> {
        match (self, least) {
            (Wrong::ZeroAsNone, Some(0)) | (Wrong::MillionLeftOut, Some(MOST)) => None,
            (Wrong::NoneAsZero, None) => Some(0),
            (Wrong::OneTooMany, Some(amount)) => Some(amount + 1),
            (Wrong::OneTooFew, Some(amount)) => Some(amount.saturating_sub(1)),
            _ => least,
        }
    }

    /// The entries of an accepted call.
    fn accepted(self, book: &[u8], table: &[u8], trade: &Trade) -> [u64; 5] {
        let least = trade.least(book, table).unwrap_or(None);
        let least = match (self, trade.limit, least) {
            (Wrong::LessThan, 0, _) => None,
            (Wrong::LessThan, limit, _) => {
                let trade = Trade {
                    limit: limit - 1,
                    ..*trade
                };
                trade.least(book, table).unwrap_or(None)
            }
            (Wrong::AddedAsWeighted, _, Some(1..)) => {
                let amount = as_weighted(book, table, trade, least.unwrap_or(0));
                amount.filter(|amount| *amount <= MOST)
            }
            _ => self.told(least),
        };
        [0, 0, 0, least.is_some().into(), least.unwrap_or(0)]
    }

    /// The refusal that is told in the place of the right one.
    fn refused(self, right: [u64; 3], book: &[u8], [_, band, side]: [usize; 3]) -> [u64; 3] {
        let check = second::check(book);
        match (self, right[0]) {
            (Wrong::AfterBook, 21) if !check.accepted() => [check.number, check.row, check.book],
            (Wrong::TableLater, 18 | 19) if band > 14 || side > 1 => [21, 0, 0],
            _ => right,
        }
    }

    /// Writes what the reading tells.
    pub fn tell(
        self,
        book: &[u8],
        table: &[u8],
        place: [usize; 3],
        limit: u64,
        out: &mut [u64; 5],
    ) {
        let (table, [group, band, side]) = self.looks_at(table, place);
        let right = answer(book, &table, [group, band, side], limit);
        let trade = Trade {
            group,
            band,
            side,
            limit,
            ..Trade::default()
        };
        if right[0] == 0 {
            *out = self.accepted(book, &table, &trade);
            return;
        }
        let refusal = self.refused([right[0], right[1], right[2]], book, place);
        out[..3].copy_from_slice(&refusal);
        out[3] = 0;
        if self != Wrong::AmountKept {
            out[4] = 0;
        }
    }
}
