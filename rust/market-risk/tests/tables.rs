//! Tables: document 01's, which are accepted, and in what order a refused one comes.

use market_risk::{raw, PerCents, Refusal, Table};

/// Document 01's weights and per cents, from the paper.
const WEIGHTS: [u16; 15] = [
    0, 20, 40, 70, 125, 175, 225, 275, 325, 375, 450, 525, 600, 800, 1_250,
];
const PER_CENTS: [u8; 6] = [10, 40, 30, 30, 40, 100];

/// The bytes of a table.
fn bytes(weights: [u16; 15], per_cents: [u8; 6]) -> Vec<u8> {
    [&weights.map(u16::to_le_bytes).concat()[..], &per_cents].concat()
}

/// The number that a table is refused with, or 0.
fn number(table: &[u8]) -> u64 {
    Table::new(table).map_or_else(|refusal| refusal.number, |_| 0)
}

/// The number for document 01's table with some weights changed.
fn with_weights(change: impl Fn(&mut [u16; 15])) -> u64 {
    let mut weights = WEIGHTS;
    change(&mut weights);
    number(&bytes(weights, PER_CENTS))
}

#[test]
fn document_01s_table() {
    let table = Table::amendment();
    assert_eq!(table.weights(), WEIGHTS);
    let expected = PerCents {
        vertical: 10,
        zones: [40, 30, 30],
        adjacent: 40,
        zones_1_3: 100,
    };
    assert_eq!(table.per_cents(), expected);
    assert_eq!(table.bytes()[..], bytes(WEIGHTS, PER_CENTS));
}

/// Each of the 36 bytes is written, over any value.
#[test]
fn every_byte_is_written() {
    for mark in [0, 1, 255] {
        let mut out = [mark; 36];
        raw::table(&mut out);
        assert_eq!(out[..], bytes(WEIGHTS, PER_CENTS));
    }
}

/// Catches two fields of the per cents that are exchanged, and a weight read high byte first.
#[test]
fn fields_are_read_from_their_own_bytes() {
    let weights = std::array::from_fn(|band| 300 + band as u16);
    let table = Table::new(&bytes(weights, [1, 2, 3, 4, 5, 6])).unwrap();
    assert_eq!(table.weights(), weights);
    let expected = PerCents {
        vertical: 1,
        zones: [2, 3, 4],
        adjacent: 5,
        zones_1_3: 6,
    };
    assert_eq!(table.per_cents(), expected);
}

#[test]
fn eighteen_is_another_length() {
    let whole = [bytes(WEIGHTS, PER_CENTS), vec![0; 37]].concat();
    for length in 0..whole.len() {
        let expected = if length == 36 { 0 } else { 18 };
        assert_eq!(number(&whole[..length]), expected, "{length}");
    }
    // The length is tried before the conditions: these weights fall.
    assert_eq!(number(&[1, 0, 0, 0]), 18);
}

#[test]
fn nineteen_is_a_falling_weight_or_one_over_2000() {
    for band in 1..15 {
        assert_eq!(with_weights(|w| w[band] = w[band - 1]), 0, "{band}");
        let falls = with_weights(|w| w[band - 1] = w[band] + 1);
        assert_eq!(falls, 19, "{band}");
    }
    assert_eq!(with_weights(|w| w[14] = 2_000), 0);
    assert_eq!(with_weights(|w| w[14] = 2_001), 19);
    for (weight, expected) in [(0, 0), (2_000, 0), (2_001, 19), (u16::MAX, 19)] {
        assert_eq!(with_weights(|w| w.fill(weight)), expected, "{weight}");
    }
}

#[test]
fn nineteen_is_a_per_cent_out_of_order() {
    let of = |per_cents| number(&bytes(WEIGHTS, per_cents));
    for same in [0, 1, 99, 100] {
        assert_eq!(of([same; 6]), 0, "{same}");
    }
    assert_eq!(of([101; 6]), 19);
    assert_eq!(of([255; 6]), 19);
    assert_eq!(of([50, 50, 50, 50, 50, 100]), 0);
    let broken = [
        [51, 50, 60, 60, 60, 100],
        [51, 60, 50, 60, 60, 100],
        [51, 60, 60, 50, 60, 100],
        [50, 61, 60, 60, 60, 100],
        [50, 60, 61, 60, 60, 100],
        [50, 60, 60, 61, 60, 100],
        [50, 60, 60, 60, 71, 70],
        [50, 60, 60, 60, 60, 101],
    ];
    for per_cents in broken {
        assert_eq!(of(per_cents), 19, "{per_cents:?}");
    }
}

/// The ladder call's refusal, every other entry being zero.
fn ladder_refusal(book: &[u8], table: &[u8], group: usize) -> [u64; 3] {
    let mut out = [u64::MAX; 13];
    raw::interest_ladder(book, table, group, &mut out);
    assert_eq!(out[3..], [0; 10]);
    [out[0], out[1], out[2]]
}

/// The charge call's refusal, every other entry being zero.
fn charge_refusal(book: &[u8], table: &[u8]) -> [u64; 3] {
    let mut out = [u64::MAX; 75];
    raw::charge(book, table, &mut out);
    assert_eq!(out[3..], [0; 72]);
    [out[0], out[1], out[2]]
}

/// Books refused with 1, 2, 3 and, in row 1, with 4; and one that is accepted.
fn books() -> [(Vec<u8>, [u64; 3]); 5] {
    let row = [7, 1, 60, 0, 0x20, 3, 0, 0, 10, 0, 0, 0, 0, 0, 0, 0];
    let mut bad = row;
    bad[0] = 32;
    let two = |second: [u8; 16]| [&[2, 0, 0, 0, 0, 0, 0, 0], &row[..], &second].concat();
    [
        (vec![0; 7], [1, 0, 0]),
        (vec![255; 8], [2, 0, 0]),
        (vec![1, 0, 0, 0, 0, 0, 0, 0], [3, 0, 0]),
        (two(bad), [4, 1, 0]),
        (two(row), [0, 0, 0]),
    ]
}

/// 10 comes first, then 18, then 19, then whatever the book is refused with.
#[test]
fn a_table_is_tried_after_the_group_and_before_the_book() {
    let good = bytes(WEIGHTS, PER_CENTS);
    let broken = bytes(WEIGHTS, [101; 6]);
    for (book, of_book) in books() {
        for (table, expected) in [(&broken[..35], 18), (&[], 18), (&broken, 19)] {
            assert_eq!(charge_refusal(&book, table), [expected, 0, 0]);
            assert_eq!(ladder_refusal(&book, table, 31), [expected, 0, 0]);
            assert_eq!(ladder_refusal(&book, table, 32), [10, 0, 0]);
        }
        assert_eq!(ladder_refusal(&book, &good, usize::MAX), [10, 0, 0]);
        if of_book[0] > 0 {
            assert_eq!(charge_refusal(&book, &good), of_book);
            assert_eq!(ladder_refusal(&book, &good, 0), of_book);
        }
    }
}

/// Catches words of another number, and a row told of a table.
#[test]
fn both_are_told_in_words() {
    let refusal = Table::new(&[]).unwrap_err();
    let words = "refused 18: the table has not 36 bytes";
    assert_eq!(refusal.to_string(), words);
    let refusal = Table::new(&bytes(WEIGHTS, [101; 6])).unwrap_err();
    let words = "refused 19: the table's weights fall or exceed 2,000, or its per cents are \
                 out of order";
    assert_eq!(refusal.to_string(), words);
    let expected = Refusal {
        number: 19,
        row: 0,
        book: 0,
    };
    assert_eq!(refusal, expected);
}
