//! The fast call for options gives what the second calculation gives: on random tables, on damaged ones,
//! at every value of each field, and into outputs of each length.

mod common;

use books::options::{encode, OptionRow};
use books::Random;
use common::compare_options;
use common::options::{damage, random_table, DAYS};

/// The length of the book that is written for a table, or any if it is refused.
fn book_length(table: &[u8]) -> usize {
    second::options_book(table).map_or(24, |book| book.len())
}

#[test]
fn random_and_damaged_tables() {
    let mut told = [0; 18];
    for case in 0..6_000 {
        let mut random = Random::of_case(29, case);
        let count = match case % 300 {
            0 => random.pick(&[999, 1_000, 1_001, 1_200]),
            1..=5 => random.below(300) as usize,
            _ => random.below(9) as usize,
        };
        let mut table = random_table(&mut random, count);
        if random.once_in(3) {
            damage(&mut random, &mut table);
        }
        let length = book_length(&table);
        let room = (length + random.below(5) as usize).saturating_sub(2);
        told[compare_options(&table, room) as usize] += 1;
    }
    let seen = [0, 12, 16, 17].map(|number| told[number]);
    assert!(seen.iter().all(|count| *count > 100), "{told:?}");
    assert_eq!(seen.iter().sum::<u64>(), 6_000);
}

/// An option of each class, in the middle of all ranges.
fn middle(class: u8) -> OptionRow {
    OptionRow {
        class,
        group: 7,
        right: 2,
        kind: u8::from(class == 2),
        amount: 12_345,
        delta: 5_432,
        gamma: 321,
        vega: 54,
        volatility: 2_100,
        days: if class == 4 { 200 } else { 0 },
    }
}

/// Compares a table in which one option stands between two others, and gives the refusal's number.
fn between(option: OptionRow) -> u64 {
    let table = encode(&[middle(3), option, middle(4)]).expect("three options");
    compare_options(&table, 56)
}

/// Catches a bit of a class, group, right or kind that is not looked at.
#[test]
fn every_value_of_the_first_four_bytes() {
    let mut accepted = [0; 4];
    for class in 2..=4 {
        for value in 0..=255 {
            let own = middle(class);
            let other = [
                OptionRow {
                    class: value,
                    ..own
                },
                OptionRow {
                    group: value,
                    ..own
                },
                OptionRow {
                    right: value,
                    ..own
                },
                OptionRow { kind: value, ..own },
            ];
            for (field, option) in other.into_iter().enumerate() {
                accepted[field] += usize::from(between(option) == 0);
            }
        }
    }
    // An option on shares, with its kind, is of no other class, nor is one on a commodity, with its
    // days; one in foreign exchange has neither, and may be on a commodity.
    assert_eq!(accepted, [4, 96, 12, 5]);
}

/// Catches a limit that is one off, and a number that is cut to fewer bits.
#[test]
fn limits_of_the_other_fields() {
    let pairs = [
        0, 1, 255, 256, 9_999, 10_000, 10_001, 36_000, 36_001, 65_535,
    ];
    for own in [2, 3, 4].map(middle) {
        for value in pairs.into_iter().chain(DAYS) {
            let number = between(OptionRow {
                delta: value,
                ..own
            });
            assert_eq!(number, if value > 10_000 { 17 } else { 0 });
            let number = between(OptionRow { days: value, ..own });
            let last = if own.class == 4 { 36_000 } else { 0 };
            assert_eq!(number, if value > last { 17 } else { 0 });
            assert_eq!(
                between(OptionRow {
                    gamma: value,
                    ..own
                }),
                0
            );
            assert_eq!(between(OptionRow { vega: value, ..own }), 0);
            let volatility = value;
            assert_eq!(between(OptionRow { volatility, ..own }), 0);
        }
        for bit in 0..32 {
            for amount in [(1u32 << bit) - 1, 1 << bit, (1 << bit) + 1] {
                let number = between(OptionRow { amount, ..own });
                let taken = (1..=1_000_000).contains(&amount);
                assert_eq!(number, if taken { 0 } else { 17 }, "{amount}");
            }
        }
        for (amount, number) in [(1_000_000, 0), (1_000_001, 17)] {
            assert_eq!(between(OptionRow { amount, ..own }), number);
        }
    }
}

/// Catches a length that is one off, of the table or of the output.
#[test]
fn lengths() {
    let mut random = Random::of_case(30, 0);
    for count in [0, 1, 2, 255, 256, 999, 1_000] {
        let table = random_table(&mut random, count);
        let length = book_length(&table);
        for room in [0, 7, 8, length - 1, length, length + 1, length + 16] {
            let expected = if room < length { 12 } else { 0 };
            assert_eq!(compare_options(&table, room), expected);
        }
        let (short, long) = (&table[..table.len() - 1], [&table[..], &[0]].concat());
        for table in [short, &long] {
            assert_eq!(compare_options(table, 0), 16);
            assert_eq!(compare_options(table, 16_008), 16);
        }
    }
    for count in [1_001, 2_000, 65_535] {
        let table = encode(&vec![middle(2); count]).expect("a count of two bytes");
        assert_eq!(compare_options(&table, 16_008), 16);
    }
}

/// The largest sums, of each sign, of each class.
#[test]
fn full_tables() {
    for class in 2..=4 {
        for right in 0..4 {
            let most = OptionRow {
                group: 31,
                right,
                amount: 1_000_000,
                delta: 10_000,
                gamma: 65_535,
                vega: 65_535,
                volatility: 65_535,
                ..middle(class)
            };
            let table = encode(&vec![most; 1_000]).expect("a thousand options");
            assert_eq!(compare_options(&table, 16_008), 0);
        }
    }
}
