//! Why a file cannot be the shortest that shows a book's refusal.

use super::reading::{first_fault, shown, Fault};
use books::names::CLASS_NAMES;
use market_risk::{Refusal, Table};

/// A fault in words.
fn words(fault: Option<Fault>) -> String {
    match fault {
        None => "accepted".into(),
        Some(Fault { number, row: None }) => format!("refused with {number}"),
        Some(Fault {
            number,
            row: Some((at, class)),
        }) => {
            format!("refused with {number} for {} row {at}", CLASS_NAMES[class])
        }
    }
}

/// The library's refusal of a book, where it is another than is found here.
fn of_book(bytes: &[u8], fault: Option<Fault>) -> Option<String> {
    let library = market_risk::check(bytes).err();
    let own = fault.map(|fault| Refusal {
        number: fault.number,
        row: fault.row.map_or(0, |(at, _)| at as u64),
        book: 0,
    });
    let told = library.map_or("accepts it".into(), |refusal| format!("tells {refusal}"));
    (library != own).then(|| format!("by the book it is {}, the library {told}", words(fault)))
}

/// The bytes of the library's file, where they are others.
fn of_bytes(file: &[u8], expected: &[u8]) -> Option<String> {
    let [own, right] = [file.len(), expected.len()];
    if own != right {
        return Some(format!(
            "the library's file has {own} bytes, by the book {right}"
        ));
    }
    let at = (0..own).find(|at| file[*at] != expected[*at])?;
    let [own, right] = [file[at], expected[at]];
    Some(format!(
        "byte {at} of the library's file is {own}, by the book {right}"
    ))
}

/// What the library's own charge says of the file, where it is not the book's number in row 0.
fn of_charge(file: &[u8], number: u64) -> Option<String> {
    let told = match market_risk::charge(file, &Table::amendment()) {
        Err(refusal) if (refusal.number, refusal.row) == (number, 0) => return None,
        Err(refusal) => refusal.to_string(),
        Ok(_) => "accepted".into(),
    };
    Some(format!(
        "the library's file should be refused with {number} in row 0 and is {told}"
    ))
}

/// Why a file, or none for an accepted book, cannot be what shows a book's refusal.
pub fn doubt(bytes: &[u8], file: Option<&[u8]>) -> Option<String> {
    let fault = first_fault(bytes);
    let of_file = || match (file, fault) {
        (None, None) => None,
        (None, Some(_)) => Some(format!(
            "the library shows nothing and calls it accepted, by the book it is {}",
            words(fault)
        )),
        (Some(file), None) => Some(format!(
            "the library shows a refusal in {} bytes, by the book it is accepted",
            file.len()
        )),
        (Some(file), Some(fault)) => {
            let expected = shown(bytes, &fault);
            of_bytes(file, &expected).or_else(|| of_charge(file, fault.number))
        }
    };
    of_book(bytes, fault).or_else(of_file)
}

#[cfg(test)]
mod tests {
    use super::*;

    /// Two shares of market 3, of which the second has a day.
    const SHARES: [u8; 40] = [
        0, 0, 2, 0, 0, 0, 0, 0, // contents
        3, 1, 0, 0, 0, 0, 0, 0, 100, 0, 0, 0, 0, 0, 0, 0, //
        3, 1, 1, 0, 0, 0, 0, 0, 0, 0, 0, 0, 40, 0, 0, 0,
    ];

    /// The second share alone.
    fn shown() -> Vec<u8> {
        [&[0, 0, 1, 0, 0, 0, 0, 0], &SHARES[24..]].concat()
    }

    /// What is told of the shares and a file.
    fn told(file: &[u8]) -> String {
        doubt(&SHARES, Some(file)).unwrap()
    }

    #[test]
    fn the_right_file_is_not_doubted() {
        assert_eq!(doubt(&SHARES, Some(&shown())), None);
        assert_eq!(doubt(&[0; 8], None), None);
        assert_eq!(doubt(&[1, 2], Some(&[])), None);
        assert_eq!(doubt(&[255; 9], Some(&[255; 8])), None);
        assert_eq!(doubt(&[0; 9], Some(&[1, 0, 0, 0, 0, 0, 0, 0])), None);
    }

    /// Catches another length, class or row that is not told.
    #[test]
    fn a_wrong_file_is_told() {
        let why = "the library's file has 40 bytes, by the book 24";
        assert_eq!(told(&SHARES), why);
        let mut other = shown();
        (other[0], other[2]) = (1, 0);
        let why = "byte 0 of the library's file is 1, by the book 0";
        assert_eq!(told(&other), why);
        let first = [&[0, 0, 1, 0, 0, 0, 0, 0], &SHARES[8..24]].concat();
        let why = "byte 10 of the library's file is 0, by the book 1";
        assert_eq!(told(&first), why);
        let why = "byte 0 of the library's file is 0, by the book 1";
        assert_eq!(doubt(&[0; 9], Some(&[0; 8])).unwrap(), why);
    }

    /// Catches an accepted book that is shown, and a refused one that is not.
    #[test]
    fn a_wrong_mark_is_told() {
        let why =
            "the library shows nothing and calls it accepted, by the book it is refused with 6 \
                   for equity row 1";
        assert_eq!(doubt(&SHARES, None).unwrap(), why);
        let why =
            "the library shows nothing and calls it accepted, by the book it is refused with 1";
        assert_eq!(doubt(&[], None).unwrap(), why);
        let why = "the library shows a refusal in 0 bytes, by the book it is accepted";
        assert_eq!(doubt(&[0; 8], Some(&[])).unwrap(), why);
    }

    /// Catches a refusal of the book or of the file that is not looked at.
    #[test]
    fn the_library_s_own_refusals_are_looked_at() {
        let fault = |number, row| Some(Fault { number, row });
        let of = |fault| of_book(&SHARES, fault).unwrap();
        let library = "the library tells refused 6 row 1: days out of their range";
        let why = format!("by the book it is refused with 7 for equity row 1, {library}");
        assert_eq!(of(fault(7, Some((1, 1)))), why);
        let why = format!("by the book it is refused with 6 for equity row 0, {library}");
        assert_eq!(of(fault(6, Some((0, 1)))), why);
        assert_eq!(of(None), format!("by the book it is accepted, {library}"));
        let why = "by the book it is refused with 3, the library accepts it";
        assert_eq!(of_book(&[0; 8], fault(3, None)).unwrap(), why);
        assert_eq!(of_charge(&shown(), 6), None);
        let begin = "the library's file should be refused with ";
        let why = format!("{begin}7 in row 0 and is refused 6 row 0: days out of their range");
        assert_eq!(of_charge(&shown(), 7).unwrap(), why);
        let why = format!("{begin}6 in row 0 and is refused 6 row 1: days out of their range");
        assert_eq!(of_charge(&SHARES, 6).unwrap(), why);
        let why = format!("{begin}3 in row 0 and is accepted");
        assert_eq!(of_charge(&[0; 8], 3).unwrap(), why);
    }
}
