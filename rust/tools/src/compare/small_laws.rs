//! The claims about a small bank (document 02, P11) on one case, by the library's own figures:
//! order, mirror, and joining, which has no premise here.

use super::case::Case;
use super::laws::{changed, dearer, joined};
use crate::calls::Calls;

/// The names of the figures, from entry 3 on.
const FIGURES: [&str; 3] = ["foreign exchange", "commodity", "total"];

/// The entries of a small bank's call.
fn small_bank(calls: &dyn Calls, book: &[u8]) -> [u64; 6] {
    let mut out = [0; 6];
    calls.small_bank(book, &mut out);
    out
}

/// Reordered and mirrored books cost the same.
fn order_and_mirror(calls: &dyn Calls, case: &Case) -> Option<String> {
    let expected = small_bank(calls, &case.a);
    match expected[0] {
        0 => changed(case, &expected, |book| small_bank(calls, book)),
        _ => None,
    }
}

/// Two accepted books that are joined are accepted, and cost at most what they cost apart.
fn joining(calls: &dyn Calls, case: &Case) -> Option<String> {
    let (a, b) = (small_bank(calls, &case.a), small_bank(calls, &case.b));
    if [a[0], b[0]] != [0, 0] {
        return None;
    }
    let whole = small_bank(calls, &joined(calls, case)?);
    if whole[0] != 0 {
        return Some(format!("the joined book is refused with {}", whole[0]));
    }
    let mut figures = (3..).zip(FIGURES);
    figures.find_map(|(entry, name)| dearer(name, entry, [&whole, &a, &b]))
}

/// What of them a case breaks, in words.
pub fn broken(calls: &dyn Calls, case: &Case) -> Option<String> {
    let told = order_and_mirror(calls, case).or_else(|| joining(calls, case))?;
    Some(format!("small bank: {told}"))
}
