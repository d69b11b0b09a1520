//! The first fault of an option table, looked for here.

use super::limits::told;
use crate::load::OPTIONS;
use crate::text::whole;
use books::options::csv::HEADER;
use books::options::{decode, COUNT_BYTES, MOST_OPTIONS, OPTION_BYTES};
use std::fmt;

/// Why a table is refused: the number, the row of 17, and the fault in words.
#[derive(Clone, Debug, PartialEq, Eq)]
pub struct Fault {
    pub number: u64,
    pub row: u64,
    pub words: String,
}

impl fmt::Display for Fault {
    fn fmt(&self, out: &mut fmt::Formatter) -> fmt::Result {
        match self.number {
            17 => write!(out, "17 in row {}", self.row),
            number => write!(out, "{number}"),
        }
    }
}

/// A count that is missing, too large, or not that of the bytes.
fn contents(bytes: &[u8]) -> Option<String> {
    let has = OPTIONS.length(bytes);
    let Some(count) = bytes.first_chunk::<COUNT_BYTES>() else {
        let begins = format!("the text of a table begins with the line {HEADER}");
        return Some(match bytes.len() {
            0 => format!("the file is empty; {begins}"),
            _ => format!("the table has {has} bytes, and its count alone has 2; {begins}"),
        });
    };
    let count = usize::from(u16::from_le_bytes(*count));
    let length = COUNT_BYTES + OPTION_BYTES * count;
    let counts = format!("the table counts {} options", whole(count as u64));
    if count > MOST_OPTIONS {
        return Some(format!("{counts}, and 1,000 are the most"));
    }
    let wanted = whole(length as u64);
    (bytes.len() != length).then(|| format!("{counts}, which have {wanted} bytes, and has {has}"))
}

/// The first fault of a table: 16, then 17 of the first bad option.
pub fn fault(bytes: &[u8]) -> Option<Fault> {
    if let Some(words) = contents(bytes) {
        let (number, row) = (16, 0);
        return Some(Fault { number, row, words });
    }
    let options = decode(bytes).unwrap_or_default();
    (0..).zip(&options).find_map(|(row, option)| {
        let (number, words) = (17, told(option)?);
        Some(Fault { number, row, words })
    })
}

#[cfg(test)]
mod tests {
    use super::*;
    use books::options::{encode, OptionRow};

    /// An option on gold, and one on no currency.
    const GOOD: OptionRow = OptionRow {
        class: 3,
        group: 0,
        right: 0,
        kind: 0,
        amount: 1,
        delta: 0,
        gamma: 0,
        vega: 0,
        volatility: 0,
        days: 0,
    };
    const BAD: OptionRow = OptionRow { group: 32, ..GOOD };

    /// Catches a fault of a later option, or another row than it has in the table.
    #[test]
    fn the_first_bad_option_is_told() {
        let of = |options: &[OptionRow]| fault(&encode(options).unwrap());
        let later = OptionRow { amount: 0, ..BAD };
        let found = of(&[GOOD, GOOD, BAD, GOOD, later]).unwrap();
        assert_eq!((found.number, found.row), (17, 2));
        assert_eq!(found.words, told(&BAD).unwrap());
        assert_eq!(found.to_string(), "17 in row 2");
        assert_eq!(of(&[]), None);
        assert_eq!(of(&[GOOD; 1_000]), None);
    }

    /// Catches 17 before 16, and a limit that is one off.
    #[test]
    fn contents_are_told_with_their_numbers() {
        let told = |bytes: &[u8]| {
            let fault = fault(bytes).unwrap();
            assert_eq!((fault.number, fault.row), (16, 0));
            assert_eq!(fault.to_string(), "16");
            fault.words
        };
        let short = "the table has 1 bytes, and its count alone has 2; ";
        assert!(told(&[1]).starts_with(short));
        assert!(told(&[]).starts_with("the file is empty; "));
        let many = "the table counts 1,001 options, and 1,000 are the most";
        assert_eq!(told(&encode(&[BAD; 1_001]).unwrap()), many);
        assert_eq!(told(&[0xe9, 0x03]), many);
        let table = encode(&[BAD; 100]).unwrap();
        let counts = "the table counts 100 options, which have 1,802 bytes, and has ";
        assert_eq!(told(&table[..1_801]), format!("{counts}1,801"));
        assert_eq!(told(&[&table[..], &[0]].concat()), format!("{counts}1,803"));
    }
}
