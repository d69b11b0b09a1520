//! Two books into one: document 01's own, since the Amendment does not join.

use crate::book::{check, counts, Refusal};

/// What join gives: the refusal, or the length of the joined book.
#[derive(Clone, Copy, Debug, Default, PartialEq, Eq)]
pub struct Joined {
    pub refusal: Refusal,
    pub length: u64,
}

/// The bodies of an accepted book, one for each class.
fn bodies(book: &[u8]) -> Vec<&[u8]> {
    let mut rest = &book[8..];
    let mut bodies = Vec::new();
    for count in counts(book) {
        let (body, after) = rest.split_at(16 * count as usize);
        bodies.push(body);
        rest = after;
    }
    bodies
}

/// The joined book of two accepted books of at most 4,000 rows together.
fn joined(a: &[u8], b: &[u8]) -> Vec<u8> {
    let mut bytes = Vec::new();
    for (of_a, of_b) in counts(a).iter().zip(counts(b)) {
        let sum = u16::try_from(of_a + of_b).expect("at most 4,000 rows");
        bytes.extend(sum.to_le_bytes());
    }
    for (of_a, of_b) in bodies(a).iter().zip(bodies(b)) {
        bytes.extend_from_slice(of_a);
        bytes.extend_from_slice(of_b);
    }
    bytes
}

/// Why join refuses, if it does: A, then B, then the caller.
fn refusal(a: &[u8], b: &[u8], room: usize) -> Refusal {
    let (of_a, of_b) = (check(a), check(b));
    if !of_a.accepted() {
        return of_a;
    }
    if !of_b.accepted() {
        return Refusal { book: 1, ..of_b };
    }
    let rows: u64 = counts(a).iter().chain(&counts(b)).sum();
    if rows > 4_000 {
        Refusal::of(11)
    } else if (room as u64) < 8 + 16 * rows {
        Refusal::of(12)
    } else {
        Refusal::NONE
    }
}

/// Writes the joined book to the front of `out`; the bytes past it keep their values.
pub fn join(a: &[u8], b: &[u8], out: &mut [u8]) -> Joined {
    let refusal = refusal(a, b, out.len());
    if !refusal.accepted() {
        return Joined { refusal, length: 0 };
    }
    let bytes = joined(a, b);
    out[..bytes.len()].copy_from_slice(&bytes);
    Joined {
        refusal,
        length: bytes.len() as u64,
    }
}
