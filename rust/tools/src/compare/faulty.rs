//! The second calculation with a fault put in on purpose.

use super::misread::{misread, mistell};
use super::premises::{at_most_two, zones};
use super::trade::answer;
use crate::calls::{Calls, Second};

/// A calculation with one fault.
#[derive(Clone, Copy, PartialEq)]
pub enum Fault {
    None,
    /// A commodity charge is one mil too high when much is carried.
    Carried,
    /// The report's last entry is not written.
    Unwritten,
    /// No row is said to be taken.
    NoneTaken,
    /// One row too many is said to be taken.
    OneMoreTaken,
    /// The rows before a bad one are still said to be taken.
    TakenKept,
    /// Each row is taken twice.
    TakenTwice,
    /// Join writes one byte past the joined book.
    PastTheEnd,
    /// A refused join writes its first byte.
    RefusedWrites,
    /// The charge looks at which row comes first.
    Order,
    /// The charge looks at which side is long.
    Side,
    /// The charge of many rows is dearer than that of their parts.
    Dear,
    /// The specific charges stand one currency too far on.
    SpecificsShifted,
    /// The general charges stand one currency too far on.
    GeneralsShifted,
    /// The two lists are exchanged.
    ListsExchanged,
    /// The last currency has no charges of its own.
    LastLeftOut,
    /// The specific charge of equities is in the list too.
    EquityInList,
    /// A refused book keeps a specific charge of a currency.
    SpecificKept,
    /// A refused book keeps a general charge of a currency.
    GeneralKept,
    /// A currency with at most two zones bears more specific charge in a longer book, where
    /// another uses three.
    DearSpecific,
    /// The same of its general charge.
    DearGeneral,
    /// The general charges of the currencies look at which row comes first.
    OrderInList,
    /// The specific charges of the currencies look at which side is long.
    SideInList,
    /// The specific weight of a floating-rate note goes by its fixing.
    SpecificAtFixing,
    /// The band of a floating-rate note goes by its final maturity.
    LadderAtFinal,
    /// A final maturity before the fixing passes.
    FinalBeforeFixing,
    /// A final maturity that is the fixing is refused.
    FinalAtFixingRefused,
    /// A final maturity is held to the limit of coupons.
    CouponLimit,
    /// A fixing is held to the limit of other days.
    DaysLimit,
    /// The amounts of a floating-rate note are looked at before its fixing.
    AmountsBeforeFixing,
    /// The group of a floating-rate note is looked at after its fixing.
    FixingBeforeGroup,
    /// Kind 4 passes in equity.
    NoteInEquity,
    /// A floating-rate note is refused with 6.
    SixForFifteen,
    /// A floating-rate note is refused with 7.
    SevenForFifteen,
    /// A floating-rate note is refused without its row.
    FifteenWithoutRow,
    /// Number 0 is handed the first class's part.
    PartOfNoClass,
    /// Number 5 is told to start where the file ends.
    PartOfFifth,
    /// A part starts as if the contents were not in the file.
    PartWithoutContents,
    /// A part starts where that of the class before it does.
    PartBefore,
    /// The length of a part is in rows.
    PartInRows,
    /// A part runs to the end of the file.
    PartToTheEnd,
    /// A part without rows starts nowhere.
    EmptyPartNowhere,
    /// A book that is refused for a row keeps a part.
    PartOfRefused,
    /// The length of a refused book's part is not written.
    PartUnwritten,
}

/// Makes the first currency with at most two zones dearer, the more the longer the book is,
/// where another uses three. The figure that the list splits and the total follow.
fn dearer_beside_three(book: &[u8], out: &mut [u64; 75], first: usize, splits: usize) {
    let zones = zones(book);
    let two = |zones: &[bool; 3]| zones.contains(&true) && at_most_two(zones);
    let own = zones.iter().position(two);
    if let Some(group) = own.filter(|_| zones.contains(&[true; 3])) {
        let more = 1_000_000 * (book.len() as u64).pow(2);
        for entry in [first + group, splits, 9] {
            out[entry] += more;
        }
    }
}

/// The second calculation with a fault.
pub struct Faulty(pub Fault);

impl Calls for Faulty {
    fn name(&self) -> &'static str {
        "a faulty calculation"
    }

    fn check(&self, book: &[u8], out: &mut [u64; 3]) {
        Second.check(&misread(self.0, book), out);
        mistell(self.0, out);
    }

    fn part(&self, book: &[u8], class: usize, out: &mut [u64; 5]) {
        let length = out[4];
        Second.part(book, class, out);
        match (self.0, out[0]) {
            (Fault::PartOfNoClass, 0) if class == 0 => Second.part(book, 1, out),
            (Fault::PartOfFifth, 0) if class == 5 => out[3] = book.len() as u64,
            (Fault::PartWithoutContents, 0) if out[3] > 0 => out[3] -= 8,
            (Fault::PartBefore, 0) if (2..=4).contains(&class) => {
                let own = out[4];
                Second.part(book, class - 1, out);
                out[4] = own;
            }
            (Fault::PartInRows, 0) => out[4] /= 16,
            (Fault::PartToTheEnd, 0) if out[3] > 0 => out[4] = book.len() as u64 - out[3],
            (Fault::EmptyPartNowhere, 0) if out[4] == 0 => out[3] = 0,
            (Fault::PartOfRefused, 4..) if class == 1 => out[3] = 8,
            (Fault::PartUnwritten, 1..) => out[4] = length,
            _ => (),
        }
    }

    fn charge(&self, book: &[u8], table: &[u8], out: &mut [u64; 75]) {
        let last = out[74];
        Second.charge(&misread(self.0, book), table, out);
        mistell(self.0, out);
        if out[0] != 0 {
            match self.0 {
                Fault::TakenKept => out[10] = out[1],
                Fault::SpecificKept => out[11] = 5,
                Fault::GeneralKept => out[74] = 5,
                _ => (),
            }
            return;
        }
        let (specifics, generals) = (11..43, 43..75);
        match self.0 {
            Fault::SpecificsShifted => out[specifics].rotate_right(1),
            Fault::GeneralsShifted => out[generals].rotate_right(1),
            Fault::ListsExchanged => out[11..75].rotate_right(32),
            Fault::LastLeftOut => (out[42], out[74]) = (0, 0),
            Fault::EquityInList => out[11] += out[5],
            Fault::DearSpecific => dearer_beside_three(book, out, 11, 3),
            Fault::DearGeneral => dearer_beside_three(book, out, 43, 4),
            _ if book.len() < 24 => (),
            Fault::Unwritten => out[74] = last,
            Fault::NoneTaken => out[10] = 0,
            Fault::OneMoreTaken => out[10] += 1,
            Fault::TakenTwice => out[10] *= 2,
            Fault::Order => out[5] += u64::from(book[14]),
            Fault::Side => out[5] += u64::from(book[16]),
            Fault::OrderInList if book[14] % 2 == 1 => out[generals].rotate_left(1),
            Fault::SideInList if book[16] != 0 => out[specifics].rotate_left(1),
            Fault::Dear => out[9] += book.len() as u64 * book.len() as u64,
            _ => (),
        }
    }

    fn interest_ladder(&self, book: &[u8], table: &[u8], group: usize, out: &mut [u64; 13]) {
        Second.interest_ladder(book, table, group, out);
    }

    fn commodity_ladder(&self, book: &[u8], group: usize, out: &mut [u64; 7]) {
        Second.commodity_ladder(book, group, out);
        if self.0 == Fault::Carried && out[4] > 1000 {
            out[6] += 1;
        }
    }

    fn small_bank(&self, book: &[u8], out: &mut [u64; 6]) {
        Second.small_bank(book, out);
    }

    fn join(&self, a: &[u8], b: &[u8], out: &mut [u8], result: &mut [u64; 4]) {
        Second.join(a, b, out, result);
        let length = result[3] as usize;
        if self.0 == Fault::PastTheEnd && result[0] == 0 && length < out.len() {
            out[length] ^= 1;
        }
        if self.0 == Fault::RefusedWrites && result[0] == 12 && !out.is_empty() {
            out[0] ^= 1;
        }
    }

    fn net(&self, book: &[u8], out: &mut [u8], result: &mut [u64; 5]) {
        Second.net(book, out, result);
    }

    fn offset(&self, book: &[u8], out: &mut [u8], result: &mut [u64; 4]) {
        Second.offset(book, out, result);
    }

    fn net_and_offset(&self, book: &[u8], out: &mut [u8], result: &mut [u64; 5]) {
        Second.net_and_offset(book, out, result);
    }

    fn shortest(&self, book: &[u8], out: &mut [u8], result: &mut [u64; 5]) {
        Second.shortest(book, out, result);
    }

    fn dearest(&self, rows: usize, most: usize, out: &mut [u8], result: &mut [u64; 5]) {
        Second.dearest(rows, most, out, result);
    }
    fn options(&self, table: &[u8], out: &mut [u8], result: &mut [u64; 17]) {
        Second.options(table, out, result);
    }

    fn least_trade(
        &self,
        book: &[u8],
        table: &[u8],
        group: usize,
        band: usize,
        side: usize,
        limit: u64,
        out: &mut [u64; 5],
    ) {
        *out = answer(book, table, [group, band, side], limit);
    }

    fn table(&self, out: &mut [u8; 36]) {
        Second.table(out);
    }
}
