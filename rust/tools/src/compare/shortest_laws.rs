//! The claims about the shortest file (document 02, P12) on one case, by the library's own figures:
//! it is refused with the number of the book, in row 0, under every table; it is no longer than the
//! book; nothing shorter is refused with that number; and given to the call once more it is the same.
//! An accepted book has a mark and no file.

use super::case::Case;
use crate::calls::Calls;
use books::Random;

/// More room than any such file needs.
const ROOM: usize = 40;

/// The number of a charge's refusal, and its row.
fn charged(calls: &dyn Calls, table: &[u8], bytes: &[u8]) -> [u64; 2] {
    let mut out = [0; 75];
    calls.charge(bytes, table, &mut out);
    [out[0], out[1]]
}

/// The tables that the file is charged under: document 01's, and that of the case where it is
/// accepted.
fn tables(calls: &dyn Calls, case: &Case) -> Vec<Vec<u8>> {
    let mut standard = [0; 36];
    calls.table(&mut standard);
    let of_case = second::read_table(&case.table).is_ok();
    let own = of_case.then(|| case.table.clone());
    [standard.to_vec()].into_iter().chain(own).collect()
}

/// The file that the call writes of a book, or why it is none.
fn file(calls: &dyn Calls, book: &[u8], refused: bool) -> Result<Vec<u8>, String> {
    let (mut out, mut result) = (vec![0; ROOM.max(book.len())], [0; 5]);
    calls.shortest(book, &mut out, &mut result);
    let [number, _, _, length, mark] = result;
    if number != 0 {
        return Err(format!("with room for the whole book, {number} is told"));
    }
    match (refused, mark, length) {
        (true, 0, _) => out.get(..length as usize).map(<[u8]>::to_vec),
        (false, 1, 0) => Some(vec![]),
        _ => None,
    }
    .ok_or_else(|| {
        let book = if refused { "a refused" } else { "an accepted" };
        format!("{book} book has length {length} and mark {mark}")
    })
}

/// Some files that are shorter than another: its beginnings and the book's, zeros and other bytes.
fn shorter(case: &Case, file: &[u8]) -> Vec<Vec<u8>> {
    let mut random = Random::new(case.order);
    let any = random.below(file.len().max(1) as u64) as usize;
    let lengths = [0, 7, 8, 9, 23, file.len().saturating_sub(1), any];
    let mut files = Vec::new();
    for length in lengths.into_iter().filter(|length| *length < file.len()) {
        files.extend([file, &case.a].map(|bytes| bytes[..length].to_vec()));
        files.push(vec![0; length]);
        files.push((0..length).map(|_| random.below(3) as u8).collect());
        files.push((0..length).map(|_| random.draw() as u8).collect());
    }
    files
}

/// What of them the file of a book that is refused with this number breaks.
fn of_file(calls: &dyn Calls, case: &Case, file: &[u8], number: u64) -> Option<String> {
    if file.len() > case.a.len() {
        let [own, book] = [file.len(), case.a.len()];
        return Some(format!("{own} bytes are written of a book of {book}"));
    }
    let tables = tables(calls, case);
    let mut charges = tables.iter().map(|table| charged(calls, table, file));
    if let Some([other, row]) = charges.find(|charge| *charge != [number, 0]) {
        return Some(format!(
            "the file of a book refused with {number} is refused with {other} row {row}"
        ));
    }
    let mut shorter = shorter(case, file).into_iter();
    let same = |bytes: &Vec<u8>| charged(calls, &tables[0], bytes)[0] == number;
    if let Some(found) = shorter.find(same) {
        let [own, less] = [file.len(), found.len()];
        return Some(format!(
            "{less} bytes are refused with {number} too, not only {own}"
        ));
    }
    let changes = self::file(calls, file, true).as_deref() != Ok(file);
    changes.then(|| "given once more, the file changes".into())
}

/// What of them a case breaks, in words.
pub fn broken(calls: &dyn Calls, case: &Case) -> Option<String> {
    let mut check = [0; 3];
    calls.check(&case.a, &mut check);
    let refused = check[0] != 0;
    let told = match file(calls, &case.a, refused) {
        Ok(file) if refused => of_file(calls, case, &file, check[0]),
        Ok(_) => None,
        Err(why) => Some(why),
    };
    Some(format!("shortest: {}", told?))
}
