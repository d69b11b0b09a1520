//! The calls over the linked library: document 01's books, and every entry written.

use market_risk::{check, commodity_ladder, join, joined, raw};
use market_risk::{InterestLadder, Refusal, Report, Table};

/// The report under document 01's table.
fn charge(book: &[u8]) -> Result<Report, Refusal> {
    market_risk::charge(book, &Table::amendment())
}

/// Currency 7's ladder under document 01's table.
fn ladder(book: &[u8]) -> Result<InterestLadder, Refusal> {
    market_risk::interest_ladder(book, &Table::amendment(), 7)
}

/// A government row of currency 7 at coupon 800, long above zero and short below.
fn bond(days: u16, net: i32) -> [u8; 16] {
    let mut row = [0; 16];
    row[..2].copy_from_slice(&[7, 1]);
    row[2..4].copy_from_slice(&days.to_le_bytes());
    row[4..6].copy_from_slice(&800u16.to_le_bytes());
    let at = if net > 0 { 8 } else { 12 };
    row[at..at + 4].copy_from_slice(&net.unsigned_abs().to_le_bytes());
    row
}

/// A book of interest rows.
fn interest(rows: &[[u8; 16]]) -> Vec<u8> {
    let mut book = vec![rows.len() as u8, 0, 0, 0, 0, 0, 0, 0];
    book.extend(rows.concat());
    book
}

#[test]
fn e3_and_e4() {
    let e3 = interest(&[bond(270, 75), bond(900, -30), bond(6000, 10)]);
    let ladder = ladder(&e3).unwrap();
    assert_eq!((ladder.gross, ladder.zones_1_2), (15_750, 5_250));
    assert_eq!((ladder.residual, ladder.charge), (5_250, 735_000));
    let a = interest(&[bond(270, 75), bond(900, -30)]);
    let b = interest(&[bond(900, 30), bond(6000, -10)]);
    let both = joined(&a, &b).unwrap();
    assert_eq!(charge(&both).unwrap().total, 577_500);
    // Joined, the currency uses three zones and costs more than in the two.
    let general = |book: &[u8]| charge(book).unwrap().generals[7];
    let generals = [&e3, &a, &b, &both].map(|book| general(book));
    assert_eq!(generals, [735_000, 210_000, 210_000, 577_500]);
    let taken = |book: &[u8]| charge(book).unwrap().taken;
    assert_eq!([&e3, &a, &b, &both].map(|book| taken(book)), [3, 2, 2, 4]);
}

/// A row that is refused after others were taken, and a file whose counts are refused.
#[test]
fn a_refused_charge_has_no_figure_and_no_row_taken() {
    let rows = [bond(270, 75), bond(900, -30), bond(6000, 10)];
    let late = interest(&[&rows[..], &[bond(36_001, 1)]].concat());
    let table = Table::amendment();
    let mut out = [u64::MAX; 75];
    raw::charge(&late, table.bytes(), &mut out);
    assert_eq!(out[..3], [6, 3, 0]);
    assert_eq!(out[3..], [0; 72]);
    raw::charge(&interest(&rows)[..55], table.bytes(), &mut out);
    assert_eq!(out[..3], [3, 0, 0]);
    assert_eq!(out[3..], [0; 72]);
}

#[test]
fn refusals_carry_number_row_and_book() {
    let bad = interest(&[bond(270, 75), bond(36_001, 1)]);
    let refusal = Refusal {
        number: 6,
        row: 1,
        book: 0,
    };
    assert_eq!(check(&bad), Err(refusal));
    assert_eq!(charge(&bad), Err(refusal));
    assert_eq!(ladder(&bad), Err(refusal));
    assert_eq!(commodity_ladder(&bad, 7), Err(refusal));
    let of_b = Refusal { book: 1, ..refusal };
    assert_eq!(join(&[0; 8], &bad, &mut []), Err(of_b));
    assert_eq!(
        of_b.to_string(),
        "refused 6 row 1 of the second book: days out of their range"
    );
    assert_eq!(joined(&[], &[]).unwrap_err().number, 1);
}

/// A floating-rate note of currency 7, long 1.
fn note(fixing: u16, maturity: u16) -> [u8; 16] {
    let mut row = bond(fixing, 1);
    row[1] = 4;
    row[4..6].copy_from_slice(&maturity.to_le_bytes());
    row
}

/// The request's own note: 160 basis points of specific risk and not 25, and 0.20% in band 1.
#[test]
fn a_floating_rate_note_is_charged_by_fixing_and_final_maturity() {
    let book = interest(&[note(90, 2_880)]);
    let report = charge(&book).unwrap();
    assert_eq!(report.interest_specific, 16_000);
    assert_eq!(report.interest_general, 2_000);
    assert_eq!((report.specifics[7], report.generals[7]), (16_000, 2_000));
    let ladder = ladder(&book).unwrap();
    assert_eq!((ladder.gross, ladder.charge), (20, 2_000));
    for (maturity, weight) in [(180, 25), (181, 100), (720, 100), (721, 160)] {
        let report = charge(&interest(&[note(90, maturity)])).unwrap();
        assert_eq!(report.interest_specific, weight * 100, "{maturity}");
    }
}

/// Catches a refusal that loses its row in words, or has another's reason.
#[test]
fn fifteen_is_told_with_its_row() {
    let refusal = Refusal {
        number: 15,
        row: 1,
        book: 0,
    };
    for (fixing, maturity) in [(361, 2_880), (90, 36_001), (90, 89)] {
        let bad = interest(&[note(360, 360), note(fixing, maturity)]);
        assert_eq!(check(&bad), Err(refusal));
        assert_eq!(charge(&bad), Err(refusal));
        assert_eq!(ladder(&bad), Err(refusal));
        assert_eq!(commodity_ladder(&bad, 7), Err(refusal));
        let of_b = Refusal { book: 1, ..refusal };
        assert_eq!(join(&[0; 8], &bad, &mut []), Err(of_b));
    }
    assert!(refusal.names_row());
    assert_eq!(
        refusal.to_string(),
        "refused 15 row 1: fixing over 360 days, or final maturity over 36,000 or before fixing"
    );
}

/// Catches a number whose row is not told, or that has no words.
#[test]
fn every_number_that_is_given_has_words() {
    let of = |number| Refusal {
        number,
        row: 3,
        book: 0,
    };
    let unknown = of(99).reason();
    for number in 1..=22 {
        assert_ne!(of(number).reason(), unknown, "{number}");
        let rows = (4..=9).chain(13..=15).chain([17]).any(|of| of == number);
        assert_eq!(of(number).to_string().contains(" row 3"), rows, "{number}");
    }
}

#[test]
fn every_entry_is_written() {
    let marked = u64::MAX;
    let (mut check, mut part, mut charge) = ([marked; 3], [marked; 5], [marked; 75]);
    let (mut join, mut net, mut offset) = ([marked; 4], [marked; 5], [marked; 4]);
    let (mut interest, mut commodity) = ([marked; 13], [marked; 7]);
    let (mut small_bank, mut both, mut shortest) = ([marked; 6], [marked; 5], [marked; 5]);
    let (mut dearest, mut options, mut trade) = ([marked; 5], [marked; 17], [marked; 5]);
    let table = Table::amendment();
    for book in [&[0; 8][..], &[]] {
        raw::check(book, &mut check);
        raw::part(book, 4, &mut part);
        raw::charge(book, table.bytes(), &mut charge);
        raw::interest_ladder(book, table.bytes(), 31, &mut interest);
        raw::commodity_ladder(book, 31, &mut commodity);
        raw::small_bank(book, &mut small_bank);
        raw::join(book, &[0; 8], &mut [0; 8], &mut join);
        raw::net(book, &mut [0; 8], &mut net);
        raw::offset(book, &mut [0; 8], &mut offset);
        raw::net_and_offset(book, &mut [0; 8], &mut both);
        raw::shortest(book, &mut [0; 8], &mut shortest);
        // It takes no book; of one row there is no room, and for none there is.
        raw::dearest(usize::from(book.is_empty()), 1, &mut [0; 8], &mut dearest);
        // No options, or no table.
        raw::options(&book[..book.len() / 4], &mut [0; 8], &mut options);
        raw::least_trade(book, table.bytes(), 31, 14, 1, 0, &mut trade);
        let results = [
            &mut check[..],
            &mut part,
            &mut charge,
            &mut interest,
            &mut commodity,
            &mut small_bank,
            &mut join,
            &mut net,
            &mut offset,
            &mut both,
            &mut shortest,
            &mut dearest,
            &mut options,
            &mut trade,
        ];
        for out in results {
            assert!(!out.contains(&marked));
            out.fill(marked);
        }
    }
}

#[test]
fn a_refused_join_writes_nothing() {
    let one = interest(&[bond(270, 75)]);
    let mut out = [9; 39];
    assert_eq!(join(&one, &one, &mut out).unwrap_err().number, 12);
    assert_eq!(out, [9; 39]);
}
