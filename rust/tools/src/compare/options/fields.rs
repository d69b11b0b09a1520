//! The ranges of an option's fields, and the refusal that a table's bytes call for.

use books::options::{decode, OptionRow, MOST_OPTIONS};

/// The ends of the fields that can be passed.
pub const ENDS: [&str; 12] = [
    "class 1",
    "class 5",
    "group 32",
    "right 4",
    "kind 0 of shares",
    "kind 4 of shares",
    "kind 1 of a currency or commodity",
    "amount 0",
    "amount 1,000,001",
    "delta 10,001",
    "day 1 of shares or a currency",
    "day 36,001 of a commodity",
];

/// By how much an option is past each end. In no class there is neither kind nor day.
pub fn past(option: &OptionRow) -> [u32; 12] {
    let over = |number: u32, most: u32| number.saturating_sub(most);
    let of_class = |classes: &[u8], past: u32| match classes.contains(&option.class) {
        true => past,
        false => 0,
    };
    let (kind, days) = (u32::from(option.kind), u32::from(option.days));
    [
        over(2, option.class.into()),
        over(option.class.into(), 4),
        over(option.group.into(), 31),
        over(option.right.into(), 3),
        of_class(&[2], over(1, kind)),
        of_class(&[2], over(kind, 3)),
        of_class(&[3, 4], kind),
        over(1, option.amount),
        over(option.amount, 1_000_000),
        over(option.delta.into(), 10_000),
        of_class(&[2, 3], days),
        of_class(&[4], over(days, 36_000)),
    ]
}

/// Whether a field of an option is out of its range.
pub fn bad(option: &OptionRow) -> bool {
    past(option) != [0; 12]
}

/// The number and the row of a table's refusal, with room for what is written.
pub fn refusal(bytes: &[u8]) -> [u64; 2] {
    let Some(options) = decode(bytes).filter(|options| options.len() <= MOST_OPTIONS) else {
        return [16, 0];
    };
    match options.iter().position(bad) {
        Some(row) => [17, row as u64],
        None => [0, 0],
    }
}

#[cfg(test)]
mod tests {
    use super::*;
    use books::options::encode;

    /// An option of a class at the upper ends of its fields.
    fn full(class: u8) -> OptionRow {
        OptionRow {
            class,
            group: 31,
            right: 3,
            kind: if class == 2 { 3 } else { 0 },
            amount: 1_000_000,
            delta: 10_000,
            gamma: 65_535,
            vega: 65_535,
            volatility: 65_535,
            days: if class == 4 { 36_000 } else { 0 },
        }
    }

    /// Catches an end that is one off, or told for another.
    #[test]
    fn each_end_is_passed_by_one() {
        let least = OptionRow {
            class: 2,
            kind: 1,
            amount: 1,
            ..OptionRow::default()
        };
        assert!((2..5).map(full).chain([least]).all(|option| !bad(&option)));
        let mut options = [full(2); 12];
        options[0].class = 1;
        options[1] = OptionRow {
            class: 5,
            ..full(4)
        };
        options[2].group = 32;
        options[3].right = 4;
        options[4].kind = 0;
        options[5].kind = 4;
        options[6] = OptionRow { kind: 1, ..full(3) };
        options[7].amount = 0;
        options[8].amount = 1_000_001;
        options[9].delta = 10_001;
        options[10].days = 1;
        options[11] = OptionRow {
            days: 36_001,
            ..full(4)
        };
        for (end, option) in options.iter().enumerate() {
            let mut expected = [0; 12];
            expected[end] = 1;
            assert_eq!(past(option), expected, "{}", ENDS[end]);
        }
    }

    /// Catches 17 before 16, and another row than the first.
    #[test]
    fn lengths_come_before_fields() {
        let (good, bad) = (full(2), full(1));
        let table = |options: &[OptionRow]| encode(options).unwrap();
        assert_eq!(refusal(&table(&[good; 1_000])), [0, 0]);
        assert_eq!(refusal(&table(&[good; 1_001])), [16, 0]);
        let several = table(&[good, bad, good, bad]);
        assert_eq!(refusal(&several), [17, 1]);
        assert_eq!(refusal(&several[..several.len() - 1]), [16, 0]);
        assert_eq!(refusal(&[0]), [16, 0]);
        assert_eq!(refusal(&[0; 2]), [0, 0]);
    }
}
