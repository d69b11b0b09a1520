//! Damage done to the bytes of a book.

use crate::names::FLOATING;
use crate::{Random, CLASSES, ROW_BYTES};

/// Days to fixing and to final maturity at their limits and past them: fixing too late, final
/// too late, final before fixing, each by itself and with others.
const TERMS: [[u16; 2]; 12] = [
    [0, 0],
    [360, 360],
    [360, 36_000],
    [361, 361],
    [361, 36_000],
    [0, 36_001],
    [360, 36_001],
    [1, 0],
    [360, 359],
    [361, 360],
    [361, 36_001],
    [65_535, 65_535],
];

/// Makes a row a floating-rate note, broken or nearly so; now and then its group or its amounts
/// are broken too. Outside interest there is no such kind.
pub fn damage_note(random: &mut Random, row: &mut [u8]) {
    let [fixing, maturity] = random.pick(&TERMS);
    row[1] = FLOATING;
    row[2..4].copy_from_slice(&fixing.to_le_bytes());
    row[4..6].copy_from_slice(&maturity.to_le_bytes());
    match random.below(16) {
        0 => row[0] = 32,
        1 => row[8..16].fill(random.pick(&[0, 1])),
        _ => (),
    }
}

/// Overwrites one field of one row with a value at or past its limit, or those of a
/// floating-rate note.
fn damage_row(random: &mut Random, row: &mut [u8]) {
    let limits = [1u16, 300, 360, 361, 10_000, 10_001, 36_000, 36_001, 65_535];
    let two = |random: &mut Random| random.pick(&limits).to_le_bytes();
    match random.below(7) {
        0 => row[0] = random.pick(&[31, 32, 33, 128, 255]),
        1 => row[1] = random.pick(&[0, 1, 3, 4, 5, 255]),
        2 => row[2..4].copy_from_slice(&two(random)),
        3 => row[4..6].copy_from_slice(&two(random)),
        6 => damage_note(random, row),
        side => {
            let amounts = [0, 1, 1_000_000_000, 1_000_000_001, 2_000_000_000, u32::MAX];
            let at = if side == 4 { 8 } else { 12 };
            row[at..at + 4].copy_from_slice(&random.pick(&amounts).to_le_bytes());
        }
    }
}

/// Overwrites one of the four counts.
fn damage_counts(random: &mut Random, bytes: &mut [u8]) {
    let at = 2 * random.below(CLASSES as u64) as usize;
    let old = u16::from_le_bytes([bytes[at], bytes[at + 1]]);
    let near = [old.wrapping_add(1), old.wrapping_sub(1)];
    let wild = [0, 3_999, 4_000, 4_001, 32_768, 65_535];
    let new = match random.once_in(2) {
        true => random.pick(&near),
        false => random.pick(&wild),
    };
    bytes[at..at + 2].copy_from_slice(&new.to_le_bytes());
}

/// Does one kind of damage to a file: a field, a count, its length, or any byte.
pub fn damage(random: &mut Random, bytes: &mut Vec<u8>) {
    let rows = bytes.len().saturating_sub(8) / ROW_BYTES;
    match random.below(24) {
        0 => bytes.truncate(random.below(bytes.len() as u64 + 1) as usize),
        1 => bytes.extend((0..=random.below(17)).map(|_| 0)),
        2 if !bytes.is_empty() => bytes.truncate(bytes.len() - 1),
        3 if bytes.len() >= 8 => damage_counts(random, bytes),
        4 if !bytes.is_empty() => {
            let at = random.below(bytes.len() as u64) as usize;
            bytes[at] = random.draw() as u8;
        }
        _ if rows > 0 => {
            let at = 8 + ROW_BYTES * random.below(rows as u64) as usize;
            damage_row(random, &mut bytes[at..at + ROW_BYTES]);
        }
        _ => (),
    }
}

#[cfg(test)]
mod tests {
    use super::*;

    #[test]
    fn damage_reaches_rows_counts_and_lengths() {
        let whole = [&[2, 0, 0, 0, 0, 0, 0, 0][..], &[1; 32]].concat();
        let mut seen = [false; 3];
        for case in 0..400 {
            let mut bytes = whole.clone();
            damage(&mut Random::of_case(1, case), &mut bytes);
            seen[0] |= bytes.len() != whole.len();
            if bytes.len() == whole.len() {
                seen[1] |= bytes[..8] != whole[..8];
                seen[2] |= bytes[8..] != whole[8..];
            }
        }
        assert_eq!(seen, [true; 3]);
    }

    /// Catches a way to break a floating-rate note that is never tried by itself, and notes that
    /// are not left whole at their limits.
    #[test]
    fn notes_are_broken_in_each_way() {
        let note = [7, 4, 90, 0, 0x40, 0x0b, 0, 0, 5, 0, 0, 0, 0, 0, 0, 0];
        let (mut whole, mut alone) = (0, [0; 3]);
        for case in 0..3_000 {
            let mut row = note;
            damage_row(&mut Random::of_case(3, case), &mut row);
            let two = |at: usize| u16::from_le_bytes([row[at], row[at + 1]]);
            let (fixing, maturity) = (two(2), two(4));
            let ways = [fixing > 360, maturity > 36_000, maturity < fixing];
            let broken: Vec<usize> = (0..3).filter(|way| ways[*way]).collect();
            match broken[..] {
                _ if row[1] != FLOATING || row == note => (),
                [] => whole += 1,
                [way] => alone[way] += 1,
                _ => (),
            }
        }
        assert!(
            whole > 60 && alone.iter().all(|count| *count > 60),
            "{alone:?}"
        );
    }

    #[test]
    fn nothing_can_be_damaged_too() {
        for case in 0..100 {
            let mut bytes = Vec::new();
            damage(&mut Random::of_case(2, case), &mut bytes);
            assert!(bytes.iter().all(|byte| *byte == 0));
        }
    }
}
