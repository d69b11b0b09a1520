//! Floating-rate notes: their bands, their specific weights, 15 in each way and place, joins.

use super::build::{all_calls, book, call, clean, join, only, row, Call, Case};
use books::names::FLOATING;
use books::Row;

/// A note of currency 7.
fn note(fixing: u16, maturity: u16, net: i64) -> Row {
    row(7, FLOATING, fixing, maturity, net)
}

/// The request's own note; notes at both ends of each band, with final maturities on the fixing,
/// on either side of 300 and at the end; at the ends of the specific weights.
fn single() -> Vec<Vec<u8>> {
    let mut notes = vec![note(90, 2880, 1)];
    for fixing in [0, 30, 31, 90, 91, 180, 181, 360] {
        let ends = [fixing, fixing + 1, 299, 300, 36_000];
        let whole = ends.into_iter().filter(|maturity| *maturity >= fixing);
        notes.extend(whole.map(|maturity| note(fixing, maturity, -700)));
    }
    for maturity in [180, 181, 720, 721, 10_000, 10_001, 35_999, 36_000] {
        notes.extend([0, 180].map(|fixing| note(fixing, maturity, 7)));
    }
    notes.iter().map(|note| only(0, &[*note])).collect()
}

/// Notes and bonds of one currency in all three zones, on both sides; the same final maturities
/// as bonds; notes of several currencies.
fn together() -> Vec<Vec<u8>> {
    let notes = [
        note(30, 7200, 11),
        note(90, 2880, 1000),
        note(180, 180, -400),
        note(360, 720, 500),
    ];
    let bonds = [
        row(7, 1, 90, 300, -350),
        row(7, 2, 2880, 299, -1000),
        row(7, 3, 800, 300, 60),
    ];
    let as_bonds = notes.map(|note| note.with_kind(2).with_days(note.coupon).with_coupon(300));
    let group = |at: usize| [0, 7, 31][at % 3];
    let several = (0..9).map(|at| notes[at % 4].with_group(group(at)));
    vec![
        only(0, &notes),
        only(0, &as_bonds),
        only(0, &[&bonds[..], &notes].concat()),
        only(0, &several.collect::<Vec<Row>>()),
        book([&notes, &[clean(1)], &[clean(2)], &[clean(3)]]),
    ]
}

/// Notes that are broken: by the fixing, by the final maturity and by their order, each just past
/// its limit and far, then by several at once.
const BROKEN: [[u16; 2]; 12] = [
    [361, 361],
    [361, 36_000],
    [36_000, 36_000],
    [0, 36_001],
    [360, 36_001],
    [90, 65_535],
    [1, 0],
    [360, 359],
    [300, 0],
    [361, 360],
    [361, 36_001],
    [65_535, 65_535],
];

/// A note for each of them.
fn broken() -> [Row; 12] {
    BROKEN.map(|[fixing, maturity]| note(fixing, maturity, 5))
}

/// Each broken note at the first, a middle and the last row, of notes alone and of all classes.
fn one_broken() -> Vec<Vec<u8>> {
    let mut books = Vec::new();
    for (at, bad) in broken().into_iter().enumerate() {
        for place in 0..3 {
            let mut rows = [note(90, 2880, 5); 3];
            rows[place] = bad;
            books.push(only(0, &rows));
        }
        let mut rows = [clean(0); 3];
        rows[at % 3] = bad;
        books.push(book([&rows, &[clean(1)], &[clean(2)], &[clean(3)]]));
    }
    books
}

/// A broken note whose row has other faults, cured of one more in the order of trying: 4, 5, 15,
/// 8, 9; and bad rows before a broken note and after it.
pub fn several_faults() -> Vec<Vec<u8>> {
    let all = row(32, 5, 361, 36_001, 1).with_sides(2_000_000_000, 1);
    let group = all.with_group(31);
    let kind = group.with_kind(FLOATING);
    let terms = kind.with_days(360).with_coupon(36_000);
    let sides = terms.with_sides(2_000_000_000, 0);
    let mut rows = vec![all, all.with_kind(FLOATING), group, kind, terms, sides];
    rows.extend([kind.with_sides(0, 0), kind.with_sides(2_000_000_000, 0)]);
    let mut books: Vec<Vec<u8>> = rows.iter().map(|row| only(0, &[*row])).collect();
    let (good, bad) = (note(90, 2880, 5), note(90, 89, 5));
    let others = [
        clean(0).with_group(32),
        clean(0).with_kind(5),
        clean(0).with_days(36_001),
        clean(0).with_coupon(10_001),
        clean(0).with_sides(1, 1),
        clean(0).with_sides(1_000_000_001, 0),
    ];
    for other in others {
        books.push(only(0, &[good, other, bad]));
        books.push(only(0, &[good, bad, other]));
    }
    books.push(book([&[bad], &[clean(1).with_group(32)], &[], &[]]));
    books.push([&only(0, &[bad])[..], &[0]].concat());
    books
}

/// Kind 4 in the other classes, whole as a note or broken: it is 5 there.
pub fn other_classes() -> Vec<Vec<u8>> {
    let mut books = Vec::new();
    for class in 1..4 {
        for [days, coupon] in [[0, 0], [90, 2880], [361, 361], [90, 36_001], [90, 89]] {
            let row = clean(class).with_kind(FLOATING);
            let row = row.with_days(days).with_coupon(coupon);
            books.push(only(class, &[clean(class), row]));
        }
    }
    books
}

/// Joins of books with notes, made and refused, and what the joined books cost: two zones, then
/// three as in E4, with a note in zone 1.
fn joins() -> Vec<Case> {
    let bond = |days, net| row(7, 1, days, 800, net);
    let near = [note(270, 2880, 75), bond(900, -30)];
    let more = [note(90, 90, -40), note(360, 36_000, 8)];
    let far = [bond(900, 30), bond(6000, -10)];
    let mut cases = Vec::new();
    for [a, b] in [[near, more], [more, near], [near, far], [far, near]] {
        let both = [a, b].concat();
        let [a, b, joined] = [&a[..], &b, &both].map(|rows| only(0, rows));
        for room in [joined.len() - 1, joined.len(), joined.len() + 5] {
            cases.push(join(&a, &b, room));
        }
        cases.extend([a, b, joined].map(|book| call(Call::Charge, &book)));
    }
    let good = only(0, &near);
    for bad in broken() {
        let bad = only(0, &[more[0], bad]);
        cases.push(join(&bad, &good, 200));
        cases.push(join(&good, &bad, 0));
    }
    cases
}

/// 4,000 notes, in runs that store small; the same with a broken last row, and first.
fn full() -> Vec<Vec<u8>> {
    let run = |number: u16| {
        let net = i64::from(number) * 1_000_003 + 1;
        let net = if number.is_multiple_of(2) { net } else { -net };
        let fixing = number * 53 % 361;
        let note = note(fixing, fixing + number * 131, net);
        vec![note.with_group((number * 7 % 32) as u8); 100]
    };
    let rows: Vec<Row> = (0..40).flat_map(run).collect();
    let spoiled = |at: usize| {
        let mut rows = rows.clone();
        rows[at] = rows[at].with_days(361).with_coupon(36_000);
        only(0, &rows)
    };
    vec![only(0, &rows), spoiled(3999), spoiled(0)]
}

/// All of them. Each bad row is checked and charged, and shown to one ladder call.
pub fn cases() -> Vec<Case> {
    let mut cases = Vec::new();
    for book in single() {
        cases.push(call(Call::InterestLadder(7), &book));
        cases.push(call(Call::Charge, &book));
    }
    for book in together() {
        cases.extend(all_calls(&book, &[7]));
    }
    let bad = [one_broken(), several_faults()].concat();
    for (at, book) in bad.iter().enumerate() {
        cases.extend(all_calls(book, &[]));
        let ladder = [Call::InterestLadder(7), Call::CommodityLadder(4)];
        cases.push(call(ladder[at % 2].clone(), book));
    }
    for book in other_classes().iter().chain(&full()) {
        cases.extend(all_calls(book, &[]));
    }
    cases.extend(joins());
    cases
}

#[cfg(test)]
mod tests {
    use super::super::answers::lines;
    use super::*;
    use std::collections::BTreeSet;
    use std::sync::OnceLock;

    /// The figures that are stored of a charge, which must be among all calls.
    fn charged(book: &[u8]) -> Vec<u64> {
        static ALL: OnceLock<Vec<Case>> = OnceLock::new();
        let charge = call(Call::Charge, book);
        assert!(ALL.get_or_init(|| super::super::cases(1)).contains(&charge));
        let line = lines(&[charge]);
        let figures = line.split_whitespace().skip(1);
        figures.map(|figure| figure.parse().unwrap()).collect()
    }

    /// Catches notes of which none lies in a band or bears a weight: 25, 100 and 160 basis
    /// points, at 0, 20, 40 and 70.
    #[test]
    fn every_band_and_every_weight_is_stored() {
        assert_eq!(charged(&single()[0])[3..5], [16_000, 2_000]);
        let rates = |book: &Vec<u8>| {
            let amount = u64::from(book[16]) + 256 * u64::from(book[17]);
            let amount = amount.max(u64::from(book[20]) + 256 * u64::from(book[21]));
            let figures = charged(book);
            assert_eq!(figures[0], 0);
            (figures[3] / amount / 100, figures[4] / amount / 100)
        };
        let seen: BTreeSet<(u64, u64)> = single().iter().map(rates).collect();
        let every = [25, 100, 160].into_iter();
        let every = every.flat_map(|specific| [0, 20, 40, 70].map(|weight| (specific, weight)));
        // A note that fixes past half a year cannot end within it.
        let every: BTreeSet<(u64, u64)> = every.filter(|pair| *pair != (25, 70)).collect();
        assert_eq!(seen, every);
    }

    /// Catches a broken note that is stored with another number, or without its row.
    #[test]
    fn every_way_and_place_of_15_is_stored() {
        let refusal = |book: &Vec<u8>| {
            let figures = charged(book);
            assert_eq!(figures[2..], [0; 73]);
            (figures[0], figures[1])
        };
        let places: Vec<(u64, u64)> = one_broken().iter().map(refusal).collect();
        let expected = (0..12).flat_map(|at| [0, 1, 2, at % 3].map(|row| (15, row)));
        assert!(places.into_iter().eq(expected));
        let full = full();
        assert_eq!(charged(&full[0])[10], 4_000);
        assert_eq!([&full[1], &full[2]].map(refusal), [(15, 3999), (15, 0)]);
    }

    /// Catches another order of trying a note, or of trying rows.
    #[test]
    fn the_first_fault_of_the_first_bad_row_is_stored() {
        let refusals: Vec<(u64, u64)> = several_faults()
            .iter()
            .map(|book| charged(book))
            .map(|figures| (figures[0], figures[1]))
            .collect();
        let one_row = [4, 4, 5, 15, 8, 9, 15, 15].map(|number| (number, 0));
        let two_rows = (4..=9).flat_map(|number| [(number, 1), (15, 1)]);
        let last = [(15, 0), (3, 0)];
        let expected = one_row.into_iter().chain(two_rows).chain(last);
        assert_eq!(refusals, expected.collect::<Vec<_>>());
        for book in other_classes() {
            assert_eq!(charged(&book)[..2], [5, 1]);
        }
    }

    /// E4 with a note costs in general what E4 costs; 75 of it at 1.60% beside that.
    #[test]
    fn joins_of_notes_are_stored_with_their_charges() {
        let joins = joins();
        let stored = lines(&joins);
        let counted = |start: &str| {
            stored
                .lines()
                .filter(|line| line.starts_with(start))
                .count()
        };
        assert_eq!(counted("join 15 1 0 "), 12);
        assert_eq!(counted("join 15 1 1 "), 12);
        assert_eq!(counted("join 0 0 0 "), 8);
        assert_eq!(counted("join 12 0 0 "), 4);
        let e4: Vec<&Case> = joins[12..18].iter().collect();
        let generals = e4[3..].iter().map(|case| charged(&case.book)[4]);
        assert!(generals.eq([210_000, 210_000, 577_500]));
        assert_eq!(charged(&e4[5].book)[3], 75 * 16_000);
    }
}
