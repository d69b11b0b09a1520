//! Who options refuses: 16, then 17 at the first bad row, both before 12.

mod common;
use common::options::*;
use second::{options_book, Refusal};

/// A table is refused with a number and a row, whatever the room: no figure, and no byte is written.
fn refused(number: u64, row: u64, table: &[u8]) {
    let mut entries = [0; 17];
    (entries[0], entries[1]) = (number, row);
    for room in [0, 1, 8, 24, 16_008] {
        assert_eq!(called(table, room), (entries, vec![0xa5; room]));
    }
    let book = 0;
    assert_eq!(options_book(table), Err(Refusal { number, row, book }));
}

/// Each of these options is good, alone.
fn good<const N: usize>(options: [Opt; N]) {
    for option in options {
        let (entries, _) = called(&option_table(&[option]), 24);
        assert_eq!(entries[..3], [0, 0, 0], "{option:?}");
    }
}

/// Each of these options is bad, alone and as the last or the first of three.
fn bad<const N: usize>(options: [Opt; N]) {
    for option in options {
        refused(17, 0, &option_table(&[option]));
        refused(17, 2, &option_table(&[plain(3), plain(4), option]));
        refused(17, 0, &option_table(&[option, plain(2), plain(3)]));
    }
}

/// One of each class.
fn each() -> [Opt; 3] {
    [2, 3, 4].map(plain)
}

#[test]
fn classes() {
    good(each());
    for kind in 0..=4 {
        bad([0, 1, 5, 6, 255].map(|class| Opt {
            class,
            kind,
            ..plain(2)
        }));
    }
}

#[test]
fn groups() {
    for option in each() {
        good([0, 31].map(|group| option.of(group)));
        bad([32, 33, 255].map(|group| option.of(group)));
    }
}

#[test]
fn rights() {
    for option in each() {
        good([0, 1, 2, 3].map(|right| option.right(right)));
        bad([4, 5, 255].map(|right| option.right(right)));
    }
}

/// Catches kinds of another class.
#[test]
fn kinds() {
    let of = |class, kind| Opt {
        kind,
        ..plain(class)
    };
    good([1, 2, 3].map(|kind| of(2, kind)));
    bad([0, 4, 255].map(|kind| of(2, kind)));
    for class in [3, 4] {
        good([of(class, 0)]);
        bad([1, 2, 3, 255].map(|kind| of(class, kind)));
    }
}

#[test]
fn amounts() {
    for option in each() {
        good([1, 1_000_000].map(|value| option.delta(value, 1)));
        bad([0, 1_000_001, 16_777_217, u32::MAX].map(|value| option.delta(value, 1)));
        // With no delta there is no row, and the amount must be in its range all the same.
        bad([0, 1_000_001].map(|value| option.delta(value, 0)));
    }
}

#[test]
fn deltas() {
    for option in each() {
        good([0, 1, 9_999, 10_000].map(|delta| option.delta(9, delta)));
        bad([10_001, 65_535].map(|delta| option.delta(9, delta)));
    }
}

#[test]
fn days() {
    let of = |class, days| Opt {
        days,
        ..plain(class)
    };
    for class in [2, 3] {
        good([of(class, 0)]);
        bad([1, 256, 36_000].map(|days| of(class, days)));
    }
    good([0, 1, 36_000].map(|days| of(4, days)));
    bad([36_001, 65_535].map(|days| of(4, days)));
}

/// Gamma, vega and volatility are good at both ends.
#[test]
fn the_other_fields_may_be_any() {
    for option in each() {
        good([0, 65_535].map(|end| option.gamma(1, end)));
        good([0, 65_535].map(|end| option.vega(end, 1)));
        good([0, 65_535].map(|end| option.vega(1, end)));
    }
}

/// Catches the last bad row, the number of rows before it in its class, or rows without a delta left
/// out of the count.
#[test]
fn the_first_bad_row_is_told() {
    let [share, fx, stock] = each();
    let none = fx.delta(9, 0);
    let bad = [
        share.of(32),
        Opt { days: 1, ..fx },
        stock.delta(0, 1),
        share.right(4),
        Opt { class: 1, ..share },
    ];
    for bad in bad {
        let table = option_table(&[stock, none, share, bad, fx, bad, share.of(99)]);
        refused(17, 3, &table);
    }
    for at in [0, 255, 256, 998, 999] {
        let mut table = vec![fx; 1_000];
        table[at] = fx.delta(1, 10_001);
        table[999] = fx.of(32);
        refused(17, at as u64, &option_table(&table));
    }
}

#[test]
fn lengths() {
    for table in [&[][..], &[0], &[1], &[255]] {
        refused(16, 0, table);
    }
    let two = option_table(&[plain(2), plain(3)]);
    for length in (2..38).chain([39, 55, 56, 57]) {
        let mut table = two.clone();
        table.resize(length, 0);
        refused(16, 0, &table);
    }
    refused(16, 0, &[0, 0, 0]);
    refused(16, 0, &counted(0, &[plain(2)]));
    refused(16, 0, &counted(256, &[plain(2)]));
    assert_eq!(called(&two, 40).0[..4], [0, 0, 0, 40]);
}

#[test]
fn counts() {
    let thousand = vec![plain(3); 1_000];
    let (entries, _) = called(&option_table(&thousand), 16_008);
    assert_eq!(entries[..4], [0, 0, 0, 16_008]);
    for count in [1_001, 1_024, 65_535] {
        refused(16, 0, &option_table(&vec![plain(3); count]));
        refused(16, 0, &counted(count as u16, &[]));
        refused(16, 0, &counted(count as u16, &thousand));
    }
    refused(16, 0, &counted(999, &thousand));
    refused(16, 0, &counted(1_000, &thousand[1..]));
}

/// A bad row waits for the count and the length, and the output for both.
#[test]
fn sixteen_before_seventeen_before_twelve() {
    let bad = plain(3).of(32);
    let table = option_table(&[bad, plain(2)]);
    refused(16, 0, &table[..table.len() - 1]);
    refused(16, 0, &[&table[..], &[0]].concat());
    refused(16, 0, &counted(1, &[bad, plain(2)]));
    refused(16, 0, &counted(3, &[bad, plain(2)]));
    refused(16, 0, &option_table(&vec![bad; 1_001]));
    refused(17, 0, &table);
}
