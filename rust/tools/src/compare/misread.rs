//! Wrong readings of floating-rate notes, put in on purpose.

use super::faulty::Fault;
use books::names::FLOATING;
use books::{Book, Row};

/// A note as a wrong reading has it.
fn misread_note(fault: Fault, note: Row) -> Row {
    let (fixing, maturity) = (note.days, note.coupon);
    let in_order = fixing <= maturity && maturity <= 36_000;
    let in_time = in_order && fixing <= 360;
    let one_side = (note.long == 0) != (note.short == 0);
    let bond = note.with_kind(2).with_days(maturity).with_coupon(300);
    match fault {
        Fault::SpecificAtFixing if in_order => note.with_coupon(fixing),
        Fault::LadderAtFinal if in_time => bond,
        Fault::FinalBeforeFixing => note.with_coupon(maturity.max(fixing)),
        Fault::FinalAtFixingRefused if maturity == fixing => note.with_days(361),
        Fault::CouponLimit if maturity > 10_000 => note.with_coupon(36_001),
        Fault::DaysLimit if in_order => note.with_days(fixing.min(360)),
        Fault::AmountsBeforeFixing if !one_side => note.with_days(0).with_coupon(0),
        Fault::FixingBeforeGroup if !in_time => note.with_group(0),
        _ => note,
    }
}

/// A book as a wrong reading has it.
pub fn misread(fault: Fault, bytes: &[u8]) -> Vec<u8> {
    let Some(mut book) = Book::decode(bytes) else {
        return bytes.to_vec();
    };
    for row in &mut book.classes[0] {
        if row.kind == FLOATING {
            *row = misread_note(fault, *row);
        }
    }
    for row in &mut book.classes[1] {
        if fault == Fault::NoteInEquity && row.kind == FLOATING {
            row.kind = 3;
        }
    }
    book.encode().expect("as many rows as before")
}

/// A refusal with 15 as a wrong reading tells it.
pub fn mistell(fault: Fault, out: &mut [u64]) {
    if out[0] == 15 {
        match fault {
            Fault::SixForFifteen => out[0] = 6,
            Fault::SevenForFifteen => out[0] = 7,
            Fault::FifteenWithoutRow => out[1] = 0,
            _ => (),
        }
    }
}
