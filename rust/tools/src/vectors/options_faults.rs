//! Option tables that are refused: 16 by each reason, 17 for each field past either end at the first, middle and
//! last option, several bad options, the order of 16, 17 and 12, and options far into a table.

use super::build::{options, Case};
use super::options_build::{clean, many, one_each, table, with, SOLD};
use books::options::OptionRow;

/// Refused with 16: fewer than two bytes, counts over 1,000, and lengths that are not those of the count. Some
/// have bad options too.
fn wrong_lengths() -> Vec<Vec<u8>> {
    let three = table(&one_each());
    let counting = |count: u16, rows: &[u8]| [&count.to_le_bytes()[..], rows].concat();
    let rows = &three[2..];
    vec![
        vec![],
        vec![0],
        vec![1],
        vec![255],
        vec![0, 0, 0],
        counting(0, &rows[..18]),
        counting(1, &[]),
        counting(1, &rows[..17]),
        counting(1, &rows[..19]),
        counting(1, &rows[..36]),
        counting(2, &rows[..18]),
        counting(3, &rows[..53]),
        counting(3, &[rows, &[0]].concat()),
        // As long as rows of 16 bytes, or a count of 8, would make it.
        counting(2, &rows[..32]),
        counting(1, &[&[0; 6], &rows[..18]].concat()),
        // Counts that are right by one of their bytes, or with the high byte first.
        counting(256, &[]),
        counting(257, &rows[..18]),
        counting(0x0300, rows),
        counting(1_000, rows),
        counting(1_001, &[]),
        counting(1_001, rows),
        counting(65_535, rows),
        // Bad options behind a wrong length.
        counting(1, &[255; 36]),
        counting(2, &[255; 35]),
        table(&many(1_001, 3)),
    ]
}

/// Options with one field past its end, by fields: class, group, right, kind, amount, delta, days.
fn bad_options(class: u8) -> [Vec<OptionRow>; 7] {
    let good = clean(class);
    let (classes, kinds, days) = match class {
        2 => ([1, 5], [0, 4], [1, 256]),
        3 => ([0, 255], [1, 255], [1, 36_000]),
        _ => ([5, 0], [1, 2], [36_001, 65_535]),
    };
    [
        classes
            .map(|class| with(good, |row| row.class = class))
            .to_vec(),
        [32, 255]
            .map(|group| with(good, |row| row.group = group))
            .to_vec(),
        [4, 255]
            .map(|right| with(good, |row| row.right = right))
            .to_vec(),
        kinds.map(|kind| with(good, |row| row.kind = kind)).to_vec(),
        // The last is 1 by its low three bytes.
        [0, 1_000_001, 0x0100_0001]
            .map(|amount| with(good, |row| row.amount = amount))
            .to_vec(),
        [10_001, 65_535]
            .map(|delta| with(good, |row| row.delta = delta))
            .to_vec(),
        days.map(|days| with(good, |row| row.days = days)).to_vec(),
    ]
}

/// A table for each of these, with its place: each field is bad at the first, middle and last of three.
fn places() -> Vec<(usize, Vec<OptionRow>)> {
    let mut tables = Vec::new();
    for class in [2, 3, 4] {
        for (field, bad) in bad_options(class).into_iter().enumerate() {
            let place = (usize::from(class) + field) % 3;
            tables.extend(bad.into_iter().map(|bad| {
                let mut rows = one_each().to_vec();
                rows[place] = bad;
                (place, rows)
            }));
        }
    }
    tables
}

/// Several faults, with the option that is told: the first in the table, whatever its class and its fault.
fn several() -> Vec<(usize, Vec<OptionRow>)> {
    let [group, days] = [1, 6].map(|field| bad_options(4)[field][0]);
    let [class, amount] = [0, 4].map(|field| bad_options(2)[field][0]);
    let [share, currency, metal] = one_each();
    let all = OptionRow::decode(&[255; 18]);
    vec![
        (1, vec![share, days, currency, class]),
        (1, vec![share, class, currency, days]),
        (0, vec![group, share, amount]),
        (0, vec![amount, share, group]),
        (2, vec![metal, currency, amount, group, class, days]),
        (0, vec![all]),
        (1, vec![metal, all, metal]),
        // Bad in a field that would not count: an option without delta.
        (1, vec![metal, with(amount, |row| row.delta = 0)]),
        (1, vec![metal, with(days, |row| row.delta = 0), all]),
        (
            0,
            vec![with(group, |row| {
                (row.delta, row.gamma, row.vega) = (0, 0, 0)
            })],
        ),
    ]
}

/// A bad option past one byte of its number, and the last of 1,000.
fn far() -> Vec<(usize, Vec<OptionRow>)> {
    let last = |count: usize, bad: OptionRow| {
        let mut rows = many(count as u32, 3);
        rows[count - 1] = bad;
        (count - 1, rows)
    };
    let group = with(SOLD, |row| row.group = 32);
    vec![
        last(257, group),
        last(1_000, with(group, |row| row.delta = 0)),
    ]
}

/// Tables with a bad option, and its place.
fn outside() -> Vec<(usize, Vec<OptionRow>)> {
    [places(), several(), far()].concat()
}

/// All of them: most with room for a book, some without, in turn.
pub fn cases() -> Vec<Case> {
    let outside = outside().into_iter().map(|(_, rows)| table(&rows));
    let tables = wrong_lengths().into_iter().chain(outside);
    let rooms = [64, 0, 16_008, 7, 56, 8, 55].into_iter().cycle();
    tables
        .zip(rooms)
        .map(|(table, room)| options(&table, room))
        .collect()
}

#[cfg(test)]
mod tests {
    use super::super::build::Call;
    use super::super::options_build::refusal;
    use super::*;
    use std::collections::HashSet;

    /// Catches tables that are refused for another reason than they are stored for, or elsewhere.
    #[test]
    fn refusals_by_hand() {
        let sixteen = vec![[16, 0]; wrong_lengths().len()];
        let outside = outside().into_iter().map(|(place, _)| [17, place as u64]);
        let expected: Vec<[u64; 2]> = sixteen.into_iter().chain(outside).collect();
        let refusals: Vec<[u64; 2]> = cases().iter().map(refusal).collect();
        assert_eq!(refusals, expected);
    }

    /// Catches a field that is not bad at each place, and an option with two faults: all its other bytes are those
    /// of the clean one.
    #[test]
    fn each_field_is_bad_alone_at_each_place() {
        let fields = [0..1, 1..2, 2..3, 3..4, 4..8, 8..10, 10..16, 16..18];
        let clean = [2, 3, 4].into_iter().flat_map(|class| [clean(class); 15]);
        let mut seen = HashSet::new();
        for ((place, rows), good) in places().iter().zip(clean) {
            let (bad, good) = (rows[*place].encode(), good.encode());
            let differ =
                |field: &usize| bad[fields[*field].clone()] != good[fields[*field].clone()];
            let differing: Vec<usize> = (0..8).filter(differ).collect();
            assert_eq!(differing.len(), 1);
            seen.insert((differing[0], *place));
        }
        assert_eq!(seen.len(), 7 * 3);
    }

    /// Catches refusals that are stored with room alone, or without it alone.
    #[test]
    fn both_numbers_come_with_room_and_without() {
        let seen: HashSet<(u64, bool)> = cases()
            .iter()
            .map(|case| match case.call {
                Call::Options { room } => (refusal(case)[0], room < 8),
                _ => panic!("another call"),
            })
            .collect();
        assert_eq!(seen.len(), 4);
    }
}
