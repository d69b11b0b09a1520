//! Floating-rate notes (document 02, P5): kind 4, with the days to the next fixing in the place
//! of the days and those to final maturity in the place of the coupon.

mod common;
use common::*;
use second::{check, commodity_ladder, join, Refusal, Report};

/// A floating-rate note of currency 7.
fn note(fixing: u16, maturity: u16, net: i64) -> Bytes {
    row(7, 4, fixing, maturity, net)
}

/// A refusal of a row.
fn at(number: u64, row: u64) -> Refusal {
    Refusal {
        number,
        row,
        book: 0,
    }
}

/// The request's own note, three months to fixing and eight years to its end: 160 basis points
/// of specific risk and not 25, and 0.20% in band 1.
#[test]
fn specific_risk_goes_by_the_final_maturity_and_the_ladder_by_the_fixing() {
    let book = interest(&[note(90, 2880, 1)]);
    let report = charge(&book);
    let expected = Report {
        interest_specific: 16_000,
        interest_general: 2_000,
        total: 18_000,
        taken: 1,
        specifics: report.specifics,
        generals: report.generals,
        ..Report::default()
    };
    assert_eq!(report, expected);
    assert_eq!((report.specifics[7], report.generals[7]), (16_000, 2_000));
    let ladder = interest_ladder(&book, 7);
    assert_eq!(
        (ladder.gross, ladder.residual, ladder.charge),
        (20, 20, 2_000)
    );
    // One maturity for both uses: by the fixing, and by the end.
    let by = |days| charge(&interest(&[row(7, 2, days, 300, 1)]));
    assert_eq!(
        [90, 2880].map(|days| by(days).interest_specific),
        [2_500, 16_000]
    );
    assert_eq!(
        [90, 2880].map(|days| by(days).interest_general),
        [2_000, 37_500]
    );
}

/// Catches an end of a weight that lies a day off, and a look at the fixing.
#[test]
fn the_specific_weight_is_qualifying_s_at_the_final_maturity() {
    let weights = [
        (0, 25),
        (180, 25),
        (181, 100),
        (720, 100),
        (721, 160),
        (10_000, 160),
        (10_001, 160),
        (36_000, 160),
    ];
    for (maturity, weight) in weights {
        for fixing in [0, 1, 30, 180, 181, 360] {
            if fixing <= maturity {
                let report = charge(&interest(&[note(fixing, maturity, -7)]));
                assert_eq!(report.interest_specific, 7 * weight * 100, "{maturity}");
            }
        }
    }
}

/// Catches a band by the final maturity, in whichever column: one below 300 days is no coupon
/// below 300. Each fixing is charged like a government bond of coupon 300 at those days.
#[test]
fn the_band_is_that_of_the_fixing_whatever_the_final_maturity() {
    let weight = |fixing| match fixing {
        0..=30 => 0,
        31..=90 => 20,
        91..=180 => 40,
        _ => 70,
    };
    for fixing in 0..=360 {
        let bond = interest_ladder(&interest(&[row(7, 1, fixing, 300, -3)]), 7);
        for maturity in [fixing, fixing + 1, 299, 300, 301, 684, 720, 7201, 36_000] {
            if fixing <= maturity {
                let ladder = interest_ladder(&interest(&[note(fixing, maturity, -3)]), 7);
                assert_eq!(ladder, bond, "{fixing} {maturity}");
                assert_eq!(ladder.charge, 3 * weight(fixing) * 100);
            }
        }
    }
}

/// Every limit on both sides, and each way past it by itself.
#[test]
fn limits_of_fixing_and_final_maturity() {
    let tried = [
        (0, (0, 0)),
        (0, (360, 360)),
        (0, (360, 36_000)),
        (0, (0, 36_000)),
        (0, (1, 1)),
        (0, (200, 10_001)),
        // Fixing over 360.
        (15, (361, 361)),
        (15, (361, 36_000)),
        (15, (36_000, 36_000)),
        // Final over 36,000.
        (15, (0, 36_001)),
        (15, (360, 36_001)),
        (15, (90, u16::MAX)),
        // Final before fixing.
        (15, (1, 0)),
        (15, (360, 359)),
        (15, (91, 90)),
        (15, (300, 0)),
        // Two of them, or all that can be at once.
        (15, (361, 360)),
        (15, (361, 36_001)),
        (15, (u16::MAX, 36_001)),
        (15, (u16::MAX, u16::MAX)),
        (15, (36_001, 10_001)),
    ];
    for (number, (fixing, maturity)) in tried {
        let book = interest(&[note(fixing, maturity, 1)]);
        assert_eq!(check(&book), at(number, 0), "{fixing} {maturity}");
    }
}

/// Catches 6 or 7 that is given to a floating rate, and 15 that is given to another kind.
#[test]
fn fifteen_stands_in_the_place_of_6_and_7() {
    let days = [0, 1, 360, 361, 36_000, 36_001, u16::MAX];
    let coupons = [0, 299, 360, 10_000, 10_001, 36_000, 36_001, u16::MAX];
    for (days, coupon) in days.iter().flat_map(|days| coupons.map(|c| (*days, c))) {
        for kind in 1..=4 {
            let number = check(&interest(&[row(7, kind, days, coupon, 1)])).number;
            let expected = match kind {
                4 if days > 360 || coupon > 36_000 || coupon < days => 15,
                4 => 0,
                _ if days > 36_000 => 6,
                _ if coupon > 10_000 => 7,
                _ => 0,
            };
            assert_eq!(number, expected, "{kind} {days} {coupon}");
        }
    }
}

/// Each row is cured of one more fault, in the order of trying.
#[test]
fn a_floating_rate_is_tried_for_4_5_15_8_and_9() {
    let both = (2_000_000_000, 1);
    let one = (2_000_000_000, 0);
    let tried = [
        (4, sides(32, 5, 361, 36_001, both.0, both.1)),
        (4, sides(32, 4, 361, 36_001, both.0, both.1)),
        (5, sides(31, 5, 361, 36_001, both.0, both.1)),
        (15, sides(31, 4, 361, 36_001, both.0, both.1)),
        (15, sides(31, 4, 360, 36_001, both.0, both.1)),
        (15, sides(31, 4, 360, 359, 0, 0)),
        (15, sides(31, 4, 360, 359, one.0, one.1)),
        (8, sides(31, 4, 360, 36_000, both.0, both.1)),
        (8, sides(31, 4, 360, 360, 0, 0)),
        (9, sides(31, 4, 360, 36_000, one.0, one.1)),
        (0, sides(31, 4, 360, 36_000, 1_000_000_000, 0)),
    ];
    for (number, row) in tried {
        assert_eq!(check(&interest(&[row])), at(number, 0), "{row:?}");
    }
}

/// Catches kind 4 that is let into another class, or is refused there with 15.
#[test]
fn kind_4_of_another_class_is_5() {
    for class in 1..4 {
        for (days, coupon) in [(0, 0), (90, 2880), (361, 361), (90, 36_001), (90, 89)] {
            let rows = [row(7, 4, days, coupon, 1)];
            let mut bodies: [&[Bytes]; 4] = [&[]; 4];
            bodies[class] = &rows;
            assert_eq!(check(&book(bodies)), at(5, 0), "class {class}");
        }
    }
}

/// The ways to break a note, by fixing and final maturity.
const BROKEN: [(u16, u16); 3] = [(361, 2880), (90, 36_001), (90, 89)];

/// Catches figures that are kept, and a row number that is not the file's.
#[test]
fn every_call_gives_15_with_its_row_and_nothing_else() {
    for (fixing, maturity) in BROKEN {
        for place in 0..5 {
            let mut rows = [note(90, 2880, 5); 5];
            rows[place] = note(fixing, maturity, 5);
            let refusal = at(15, place as u64);
            let file = book([&rows, &[clean(1)], &[clean(2)], &[clean(3)]]);
            let zero = Report {
                refusal,
                ..Report::default()
            };
            assert_eq!(charge(&file), zero);
            assert_eq!(interest_ladder(&file, 7).entries()[3..], [0; 10]);
            assert_eq!(interest_ladder(&file, 7).refusal, refusal);
            assert_eq!(commodity_ladder(&file, 4).refusal, refusal);
            assert_eq!(commodity_ladder(&file, 32).refusal, Refusal::of(10));
        }
    }
}

/// Catches a look at the notes before the other rows, or after them.
#[test]
fn the_first_bad_row_wins_before_a_note_and_after_it() {
    let good = note(90, 2880, 5);
    for (fixing, maturity) in BROKEN {
        let bad = note(fixing, maturity, 5);
        for (number, other) in [
            (4, row(32, 1, 0, 0, 1)),
            (6, row(1, 1, 36_001, 0, 1)),
            (7, row(1, 2, 0, 10_001, 1)),
            (9, row(1, 3, 0, 0, 1_000_000_001)),
        ] {
            assert_eq!(check(&interest(&[good, other, bad])), at(number, 1));
            assert_eq!(check(&interest(&[good, bad, other])), at(15, 1));
        }
        let stock = [row(40, 0, 0, 0, 1)];
        assert_eq!(check(&book([&[good, bad], &[], &[], &stock])), at(15, 1));
        let mut longer = interest(&[bad]);
        longer.push(0);
        assert_eq!(check(&longer), Refusal::of(3));
    }
}

/// Notes and bonds of several currencies on both sides.
fn many() -> Vec<Bytes> {
    let row = |number: u16| {
        let net = i64::from(number * 37 % 101 + 1);
        let net = if number % 5 < 3 { net } else { -net };
        let group = (number % 3 * 11) as u8;
        match number % 4 {
            3 => row(group, 4, number * 7 % 361, 361 + number * 91, net),
            kind => row(
                group,
                kind as u8 + 1,
                number * 131 % 9_001,
                number * 53 % 601,
                net,
            ),
        }
    };
    (0..300).map(row).collect()
}

/// A note costs what a government bond of coupon 300 costs in general, at its fixing, and what
/// a qualifying one costs in specific risk, at its final maturity.
#[test]
fn a_note_is_one_bond_in_the_ladder_and_another_in_specific_risk() {
    let fields = |row: &Bytes, at: usize| u16::from_le_bytes([row[at], row[at + 1]]);
    let as_bond = |kind: u8, days_at: usize| {
        move |row: &Bytes| {
            let mut bond = *row;
            if row[1] == 4 {
                bond[1] = kind;
                bond[2..4].copy_from_slice(&fields(row, days_at).to_le_bytes());
                bond[4..6].copy_from_slice(&300u16.to_le_bytes());
            }
            bond
        }
    };
    let rows = many();
    let notes = charge(&interest(&rows));
    let slotted: Vec<Bytes> = rows.iter().map(as_bond(1, 2)).collect();
    let slotted = charge(&interest(&slotted));
    assert_eq!(notes.interest_general, slotted.interest_general);
    assert_eq!(notes.generals, slotted.generals);
    assert!(notes.interest_specific > slotted.interest_specific);
    let ended: Vec<Bytes> = rows.iter().map(as_bond(2, 4)).collect();
    let ended = charge(&interest(&ended));
    assert_eq!(notes.interest_specific, ended.interest_specific);
    assert_eq!(notes.specifics, ended.specifics);
}

#[test]
fn order_and_sides_do_not_matter() {
    let rows = many();
    let expected = charge(&interest(&rows));
    assert!(expected.refusal.accepted());
    let mut turned: Vec<Bytes> = rows.iter().rev().copied().collect();
    assert_eq!(charge(&interest(&turned)), expected);
    for row in &mut turned {
        let (long, short) = row[8..].split_at_mut(4);
        long.swap_with_slice(short);
    }
    assert_eq!(charge(&interest(&turned)), expected);
}

/// E4 with a note in the place of the bond in zone 1: its general charge is the same, also
/// joined; 75 at 1.60% cost 1,200,000 of specific risk.
#[test]
fn notes_are_joined() {
    let a = interest(&[note(270, 2880, 75), bond(900, -30)]);
    let b = interest(&[bond(900, 30), bond(6000, -10)]);
    let mut joined = vec![0; a.len() + b.len() - 8];
    assert!(join(&a, &b, &mut joined).refusal.accepted());
    let general = |book: &[u8]| charge(book).interest_general;
    let generals = [&a, &b, &joined].map(|book| general(book));
    assert_eq!(generals, [210_000, 210_000, 577_500]);
    assert_eq!(charge(&joined).interest_specific, 1_200_000);
    let mut counts_and_rows = vec![4, 0, 0, 0, 0, 0, 0, 0];
    counts_and_rows.extend_from_slice(&a[8..]);
    counts_and_rows.extend_from_slice(&b[8..]);
    assert_eq!(joined, counts_and_rows);
}

#[test]
fn join_refuses_a_broken_note_before_the_caller() {
    let full = interest(&vec![note(90, 2880, 1); 4_000]);
    for (fixing, maturity) in BROKEN {
        let bad = interest(&[note(90, 2880, 5), note(fixing, maturity, 5)]);
        let mut out = [7; 9];
        assert_eq!(join(&bad, &[], &mut out).refusal, at(15, 1));
        assert_eq!(join(&bad, &full, &mut out).refusal, at(15, 1));
        let of_b = Refusal {
            book: 1,
            ..at(15, 1)
        };
        assert_eq!(join(&full, &bad, &mut out).refusal, of_b);
        assert_eq!(join(&full, &bad, &mut out).entries(), [15, 1, 1, 0]);
        assert_eq!(out, [7; 9]);
    }
}
