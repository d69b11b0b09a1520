//! Refusals of option tables by a reading.

use super::readings::Wrong;
use books::options::{OptionRow, COUNT_BYTES, OPTION_BYTES};

/// A refusal with its number and row, and the options before it.
pub struct Refused {
    pub number: u64,
    pub row: u64,
    pub before: Vec<OptionRow>,
}

/// A refusal without a row.
fn plain(number: u64) -> Refused {
    Refused {
        number,
        row: 0,
        before: Vec::new(),
    }
}

impl Wrong {
    /// The options that stand in a table, whatever its length.
    fn readable(self, table: &[u8]) -> Vec<OptionRow> {
        let rows = table.get(COUNT_BYTES..).unwrap_or(&[]);
        let rows = rows.chunks_exact(OPTION_BYTES);
        rows.map(|row| self.option(row.try_into().unwrap()))
            .collect()
    }

    /// How many options a table has, where its length and its count are right.
    fn counted(self, table: &[u8]) -> Option<usize> {
        let count = u16::from_le_bytes(*table.first_chunk()?);
        let count = match self {
            Wrong::NarrowCount => usize::from(count as u8),
            _ => count.into(),
        };
        let (least, most) = match self {
            Wrong::FullRefused => (0, 999),
            Wrong::OneMoreTaken => (0, 1_001),
            Wrong::LengthAlone => (0, usize::MAX),
            Wrong::NoneRefused => (1, 1_000),
            _ => (0, 1_000),
        };
        let length = COUNT_BYTES + OPTION_BYTES * count;
        let fits = match self {
            Wrong::LongerTaken => table.len() >= length,
            _ => table.len() == length,
        };
        (fits && (least..=most).contains(&count)).then_some(count)
    }

    /// The row that is told of a bad option.
    fn row_told(self, options: &[OptionRow], at: usize) -> u64 {
        let class = options[at].class;
        let row = match self {
            Wrong::RowFromOne => at + 1,
            Wrong::RowOfClass => {
                let before = options[..at].iter();
                before.filter(|option| option.class == class).count()
            }
            Wrong::LastRow => options
                .iter()
                .rposition(|option| !self.takes(option))
                .unwrap(),
            Wrong::NoRow => 0,
            _ => at,
        };
        row as u64
    }

    /// The first bad option among some.
    fn bad(self, options: &[OptionRow]) -> Option<Refused> {
        let at = options.iter().position(|option| !self.takes(option))?;
        Some(Refused {
            number: 17,
            row: self.row_told(options, at),
            before: options[..at].to_vec(),
        })
    }

    /// The options of a table, or its refusal but for 12.
    pub fn read(self, table: &[u8], room: usize) -> Result<Vec<OptionRow>, Refused> {
        let mut options = self.readable(table);
        let early = self.bad(&options).filter(|_| self == Wrong::SeventeenFirst);
        if let Some(bad) = early {
            return Err(bad);
        }
        let Some(count) = self.counted(table) else {
            let number = if self == Wrong::SeventeenForLength {
                17
            } else {
                16
            };
            return Err(plain(number));
        };
        options.truncate(count);
        let rows = options.iter().filter(|option| option.delta > 0).count();
        if self == Wrong::TwelveFirst && room < 8 + 16 * rows {
            return Err(plain(12));
        }
        match self.bad(&options) {
            Some(bad) => Err(bad),
            None => Ok(options),
        }
    }
}
