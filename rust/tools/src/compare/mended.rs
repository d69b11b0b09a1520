//! Tables with one condition met that they break, or broken where it is just met, by its way:
//! what a reading that does not test it, or tests it too strictly, takes them for.

use books::tables::Table;

/// The table with one condition met; the others stay as they are.
pub fn mended(way: usize, table: &[u8]) -> Vec<u8> {
    let Some(mut fields) = Table::decode(table) else {
        return table.to_vec();
    };
    match way {
        0 => fields.weights.sort_unstable(),
        1 => fields.weights = fields.weights.map(|weight| weight.min(2_000)),
        2..=4 => fields.zones[way - 2] = fields.zones[way - 2].max(fields.vertical),
        5..=7 => fields.zones[way - 5] = fields.zones[way - 5].min(fields.adjacent),
        8 => fields.zones_1_3 = fields.zones_1_3.max(fields.adjacent),
        _ => fields.zones_1_3 = fields.zones_1_3.min(100),
    }
    fields.encode()
}

/// An accepted table, or a refused one where both sides of one condition are equal.
pub fn refused_where_equal(way: usize, table: &[u8]) -> Vec<u8> {
    let fields = Table::decode(table).expect("an accepted table");
    let Table {
        weights,
        vertical,
        zones,
        adjacent,
        zones_1_3,
    } = fields;
    let equal = match way {
        0 => weights.windows(2).any(|pair| pair[0] == pair[1]),
        1 => weights.contains(&2_000),
        2..=4 => vertical == zones[way - 2],
        5..=7 => zones[way - 5] == adjacent,
        8 => adjacent == zones_1_3,
        _ => zones_1_3 == 100,
    };
    match equal {
        true => vec![255; 36],
        false => table.to_vec(),
    }
}
