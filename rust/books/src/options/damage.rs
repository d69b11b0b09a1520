//! Option tables that are damaged, in each way: their length, their count, and the fields of options.

use super::{encode, OptionRow, MOST_OPTIONS, OPTION_BYTES};
use crate::Random;

/// A number past a limit: mostly the first, else one that is far from it or ends like a good one.
fn past<T: Copy>(random: &mut Random, first: T, far: &[T]) -> T {
    match random.once_in(4) {
        true => random.pick(far),
        false => first,
    }
}

/// A kind that a class does not know.
fn kind(random: &mut Random, class: u8) -> u8 {
    match class {
        2 if random.once_in(2) => 0,
        2 => past(random, 4, &[5, 129, 255]),
        _ => past(random, 1, &[2, 128, 255]),
    }
}

/// An amount that is out of its range.
fn amount(random: &mut Random) -> u32 {
    let far = [1_000_002, 0x0100_0001, 0x8000_0001, u32::MAX];
    match random.once_in(2) {
        true => 0,
        false => past(random, 1_000_001, &far),
    }
}

/// Days that a class does not allow.
fn days(random: &mut Random, class: u8) -> u16 {
    match class {
        4 => past(random, 36_001, &[36_002, 65_535]),
        _ => past(random, 1, &[256, 32_768, 65_535]),
    }
}

/// The option with one field out of its range, at either end.
fn bad(random: &mut Random, option: OptionRow) -> OptionRow {
    let (mut bad, class) = (option, option.class);
    match random.below(9) {
        0 => bad.class = past(random, 1, &[0]),
        1 => bad.class = past(random, 5, &[6, class ^ 8, class ^ 128, 255]),
        2 => bad.group = past(random, 32, &[33, 63, 128, 255]),
        3 => bad.right = past(random, 4, &[5, 7, 130, 255]),
        4 | 5 => bad.kind = kind(random, class),
        6 => bad.amount = amount(random),
        7 => bad.delta = past(random, 10_001, &[16_384, 26_384, 32_769, 65_535]),
        _ => bad.days = days(random, class),
    }
    bad
}

/// One to three options with a bad field: any, the first or the last.
fn spoil(random: &mut Random, options: &mut [OptionRow]) {
    for _ in 0..random.pick(&[1, 1, 1, 2, 3]) {
        if let Some(last) = options.len().checked_sub(1) {
            let any = random.below(options.len() as u64) as usize;
            let at = random.pick(&[0, any, any, last]);
            options[at] = bad(random, options[at]);
        }
    }
}

/// As many options as are too many, of these again and again. Their count agrees.
fn too_many(random: &mut Random, options: &[OptionRow]) -> Vec<OptionRow> {
    let over = MOST_OPTIONS + 1;
    let count = random.pick(&[over, over, over, over + 1, 1_024, 1_280]);
    options.iter().copied().cycle().take(count).collect()
}

/// Changes the count, by one or to another number.
fn recount(random: &mut Random, bytes: &mut [u8]) {
    if let Some(count) = bytes.first_chunk_mut::<2>() {
        let old = u16::from_le_bytes(*count);
        let near = [old.wrapping_add(1), old.wrapping_sub(1)];
        let far = [0, 256, 1_000, 1_001, 65_535, old ^ 0x100, old ^ 0x8000];
        let new = match random.once_in(2) {
            true => random.pick(&near),
            false => random.pick(&far),
        };
        *count = new.to_le_bytes();
    }
}

/// Makes a table shorter or longer, by a byte, by an option or by any number of bytes.
fn resize(random: &mut Random, bytes: &mut Vec<u8>) {
    let length = bytes.len();
    let step = random.pick(&[1, 1, 2, OPTION_BYTES - 1, OPTION_BYTES, OPTION_BYTES + 1]);
    match random.below(5) {
        0 => bytes.truncate(random.below(length as u64 + 1) as usize),
        1 | 2 => bytes.truncate(length.saturating_sub(step)),
        _ => bytes.extend((0..step).map(|_| random.pick(&[0, 2, 255]))),
    }
}

/// The bytes of a table of these options, at most 1,000, damaged in one way or two: options with bad
/// fields, mostly; another length or count, also with bad options; too many options, or hardly any
/// bytes; any bytes.
pub fn damaged(random: &mut Random, options: &[OptionRow]) -> Vec<u8> {
    let mut options = options.to_vec();
    let way = random.below(32);
    if way < 16 || way.is_multiple_of(2) {
        spoil(random, &mut options);
    }
    if way == 16 || way == 17 {
        options = too_many(random, &options);
    }
    let mut bytes = encode(&options).expect("at most 1,280 options");
    match way {
        18..=21 => recount(random, &mut bytes),
        22..=26 => resize(random, &mut bytes),
        27 | 28 => bytes.truncate(random.pick(&[0, 1])),
        29 => (0..3).for_each(|_| {
            let at = random.below(bytes.len() as u64) as usize;
            bytes[at] = random.draw() as u8;
        }),
        30 | 31 => {
            let length = random.pick(&[2, 19, 20, 38]) + random.below(2) as usize;
            bytes = (0..length).map(|_| random.draw() as u8).collect();
        }
        _ => (),
    }
    bytes
}

#[cfg(test)]
mod tests {
    use super::super::{decode, random};
    use super::*;

    /// Tables of so many options, damaged.
    fn many(count: usize) -> Vec<Vec<u8>> {
        let table = |case| {
            let mut random = Random::of_case(1, case);
            let shape = random::Shape::new(&mut random);
            let options = random::table(&mut random, &shape, count);
            damaged(&mut random, &options)
        };
        (0..4_000).map(table).collect()
    }

    /// Catches an end of a field that is never passed by one alone.
    #[test]
    fn every_field_is_passed_at_either_end() {
        let tables = many(3);
        let options: Vec<OptionRow> = tables
            .iter()
            .flat_map(|bytes| decode(bytes))
            .flatten()
            .collect();
        let some = |wanted: &dyn Fn(&OptionRow) -> bool| {
            let found = options.iter().filter(|option| wanted(option)).count();
            assert!(found > 12, "{found}");
        };
        some(&|option| option.class == 1);
        some(&|option| option.class == 5);
        some(&|option| option.group == 32);
        some(&|option| option.right == 4);
        some(&|option| option.class == 2 && option.kind == 0);
        some(&|option| option.class == 2 && option.kind == 4);
        some(&|option| option.class == 3 && option.kind == 1);
        some(&|option| option.class == 4 && option.kind == 1);
        some(&|option| option.amount == 0);
        some(&|option| option.amount == 1_000_001);
        some(&|option| option.delta == 10_001);
        some(&|option| option.class == 2 && option.days == 1);
        some(&|option| option.class == 3 && option.days == 1);
        some(&|option| option.class == 4 && option.days == 36_001);
    }

    /// Catches a wrong length or count that never comes up.
    #[test]
    fn lengths_and_counts_are_wrong_in_each_way() {
        let tables = many(3);
        let some = |wanted: &dyn Fn(&[u8], usize) -> bool| {
            let count = |bytes: &[u8]| {
                let count = bytes.first_chunk().map(|count| u16::from_le_bytes(*count));
                count.map_or(0, usize::from)
            };
            let found = tables.iter().filter(|bytes| wanted(bytes, count(bytes)));
            let found = found.count();
            assert!(found > 12, "{found}");
        };
        some(&|bytes, _| bytes.is_empty());
        some(&|bytes, _| bytes.len() == 1);
        some(&|bytes, count| count == 3 && bytes.len() == 55);
        some(&|bytes, count| count == 3 && bytes.len() == 57);
        some(&|bytes, count| count == 3 && bytes.len() == 74);
        some(&|bytes, count| count == 2 && bytes.len() == 56);
        some(&|bytes, count| count == 4 && bytes.len() == 56);
        some(&|bytes, count| count == 0x103 && bytes.len() == 56);
        some(&|bytes, count| count == 1_001 && bytes.len() == 2 + 18 * 1_001);
    }

    /// Catches a table without options that cannot be damaged.
    #[test]
    fn no_options_are_damaged_too() {
        let tables = many(0);
        assert!(tables.iter().any(|bytes| bytes.len() < 2));
        assert!(tables.iter().any(|bytes| bytes.len() > 2));
    }
}
