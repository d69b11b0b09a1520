//! The tables between a table and document 01's, made one by one.

use books::tables::{Table, BANDS, TABLE_BYTES};

/// The fields of a table: its weights, then its per cents.
type Fields = [u16; BANDS + 6];

/// The fields of 36 bytes, else nothing.
fn fields(bytes: &[u8]) -> Option<Fields> {
    let table = Table::decode(bytes)?;
    let per_cents = bytes[2 * BANDS..].iter().map(|byte| u16::from(*byte));
    let fields: Vec<u16> = table.weights.into_iter().chain(per_cents).collect();
    fields.try_into().ok()
}

/// The bytes of fields of which the per cents are bytes.
fn bytes(fields: &Fields) -> Vec<u8> {
    let (weights, per_cents) = fields.split_at(BANDS);
    let weights = weights.iter().flat_map(|weight| weight.to_le_bytes());
    let per_cents = per_cents.iter().map(|per_cent| *per_cent as u8);
    weights.chain(per_cents).collect()
}

/// Fields with one of them, or all from one on, as document 01 has it, halfway there, or one
/// nearer.
fn nearer_fields(own: Fields, goal: Fields) -> impl Iterator<Item = Fields> {
    let whole = (0..own.len())
        .map(move |from| std::array::from_fn(|at| if at < from { own[at] } else { goal[at] }));
    let single = (0..own.len()).flat_map(move |at| {
        let (from, to) = (i32::from(own[at]), i32::from(goal[at]));
        [to, (from + to) / 2, from + (to - from).signum()].map(|value| {
            let mut fields = own;
            fields[at] = value as u16;
            fields
        })
    });
    whole.chain(single).filter(move |fields| *fields != own)
}

/// Tables of a wrong length with document 01's bytes: next to 36, one byte nearer to it, and as
/// long as before.
fn nearer_lengths(length: usize) -> impl Iterator<Item = Vec<u8>> {
    let nearer = match length < TABLE_BYTES {
        true => length + 1,
        false => length - 1,
    };
    let next = if length < TABLE_BYTES { 35 } else { 37 };
    let lengths = [next, nearer, length].into_iter();
    lengths.map(|length| second::table().into_iter().cycle().take(length).collect())
}

/// The tables nearer to document 01's that a table may be changed to: that table first.
pub fn nearer(table: &[u8]) -> impl Iterator<Item = Vec<u8>> + '_ {
    let goal = second::table();
    let tables: Box<dyn Iterator<Item = Vec<u8>>> = match (fields(table), fields(&goal)) {
        (Some(own), Some(goal)) => Box::new(nearer_fields(own, goal).map(|own| bytes(&own))),
        _ => Box::new(nearer_lengths(table.len())),
    };
    let least = [goal.to_vec()].into_iter();
    least.chain(tables).filter(move |nearer| nearer != table)
}

#[cfg(test)]
mod tests {
    use super::*;

    /// How far a table is from document 01's.
    fn distance(table: &[u8]) -> u64 {
        let goal = second::table();
        match (fields(table), fields(&goal)) {
            (Some(own), Some(goal)) => {
                let pairs = own.iter().zip(goal);
                pairs.map(|(one, two)| u64::from(one.abs_diff(two))).sum()
            }
            _ => {
                let pairs = table.iter().zip(goal.iter().cycle());
                let bytes: usize = pairs.filter(|(one, two)| one != two).count();
                (1_000_000 * (1 + table.len().abs_diff(36)) + bytes) as u64
            }
        }
    }

    /// Catches a change that leads away, or round in a circle.
    #[test]
    fn every_change_leads_nearer() {
        let tables = [
            vec![7; 36],
            vec![255; 36],
            vec![0; 36],
            vec![3; 35],
            vec![3; 90],
            vec![],
        ];
        for table in tables {
            assert!(nearer(&table).count() > 2);
            for next in nearer(&table) {
                assert!(distance(&next) < distance(&table), "{table:?} {next:?}");
            }
        }
        assert_eq!(nearer(&second::table()).count(), 0);
    }

    /// Catches fields that are exchanged on the way.
    #[test]
    fn one_weight_or_per_cent_is_changed_by_itself() {
        let mut own = second::table();
        (own[4], own[33]) = (44, 20);
        let changed: Vec<Vec<u8>> = nearer(&own).collect();
        for (at, byte) in [(4, 40), (4, 42), (4, 43), (33, 30), (33, 25), (33, 21)] {
            let mut expected = own;
            expected[at] = byte;
            assert!(changed.contains(&expected.to_vec()), "{at} {byte}");
        }
    }

    #[test]
    fn a_wrong_length_comes_next_to_36() {
        let lengths = |length: usize| -> Vec<usize> {
            nearer(&vec![1; length]).map(|table| table.len()).collect()
        };
        assert_eq!(lengths(3), [36, 35, 4, 3]);
        assert_eq!(lengths(50), [36, 37, 49, 50]);
    }
}
