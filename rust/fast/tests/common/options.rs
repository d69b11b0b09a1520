//! Random option tables, accepted and damaged.

use books::options::{encode, OptionRow, OPTION_BYTES};
use books::Random;

/// Days at the ends of the bands of commodities and next to them, and at the limit.
pub const DAYS: [u16; 15] = [
    0, 1, 30, 31, 90, 91, 180, 181, 360, 361, 720, 721, 1_080, 1_081, 36_000,
];

/// A number at an end of a range, or any of it.
fn edge(random: &mut Random, first: u64, last: u64) -> u64 {
    match random.below(4) {
        0 => first,
        1 => last,
        _ => first + random.below(last - first + 1),
    }
}

/// An accepted option of a class on one of so many groups.
fn option(random: &mut Random, class: u8, groups: u64) -> OptionRow {
    let any = |random: &mut Random| edge(random, 0, 65_535) as u16;
    let most = random.pick(&[9, 20_000, 1_000_000]);
    OptionRow {
        class,
        group: match random.once_in(4) {
            true => 31,
            false => random.below(groups) as u8,
        },
        right: random.below(4) as u8,
        kind: match class {
            2 => 1 + random.below(3) as u8,
            _ => 0,
        },
        amount: edge(random, 1, most) as u32,
        delta: edge(random, 0, 10_000) as u16,
        gamma: any(random),
        vega: any(random),
        volatility: any(random),
        days: if class == 4 { random.pick(&DAYS) } else { 0 },
    }
}

/// A table of so many options of all classes, on few groups or many.
pub fn random_table(random: &mut Random, count: usize) -> Vec<u8> {
    let groups = random.pick(&[1, 3, 32]);
    let mut next = || {
        let class = 2 + random.below(3) as u8;
        option(random, class, groups)
    };
    let options: Vec<OptionRow> = (0..count).map(|_| next()).collect();
    encode(&options).expect("few options")
}

/// Overwrites a field of an option with a value that may be out of its range, or changes the count or the
/// length of the table.
pub fn damage(random: &mut Random, table: &mut Vec<u8>) {
    let rows = (table.len() - 2) / OPTION_BYTES;
    let row = 2 + OPTION_BYTES * random.below(rows.max(1) as u64) as usize;
    let wild: u16 = random.pick(&[0, 1, 4, 5, 31, 32, 255, 10_000, 10_001, 36_001]);
    match random.below(6) {
        0 => table.truncate(random.below(table.len() as u64) as usize),
        1 => table.extend(vec![0; 1 + random.below(20) as usize]),
        2 => table[..2].copy_from_slice(&random.pick(&[0, 1_000, 1_001, wild]).to_le_bytes()),
        _ if rows == 0 => (),
        3 => table[row + random.below(4) as usize] = wild as u8,
        4 => {
            let at = row + random.pick(&[8, 16]);
            table[at..at + 2].copy_from_slice(&wild.to_le_bytes());
        }
        _ => {
            let amount = random.pick(&[0, 1_000_001, 1 << 24, u32::MAX]);
            table[row + 4..row + 8].copy_from_slice(&amount.to_le_bytes());
        }
    }
}
