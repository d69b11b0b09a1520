//! Two books joined into one.

use crate::book::room;
use crate::{raw, Refusal};

/// Writes the join of two books to the front of `out` and gives its length.
/// Bytes past it keep their values; a refused join writes nothing.
///
/// ```
/// let mut out = [7; 10];
/// assert_eq!(market_risk::join(&[0; 8], &[0; 8], &mut out), Ok(8));
/// assert_eq!(out, [0, 0, 0, 0, 0, 0, 0, 0, 7, 7]);
/// ```
pub fn join(a: &[u8], b: &[u8], out: &mut [u8]) -> Result<usize, Refusal> {
    let mut result = [0; 4];
    raw::join(a, b, out, &mut result);
    Refusal::of(&result)?;
    Ok(result[3] as usize)
}

/// The join of two books, in a buffer of its own.
///
/// ```
/// assert_eq!(market_risk::joined(&[0; 8], &[0; 8]), Ok(vec![0; 8]));
/// ```
pub fn joined(a: &[u8], b: &[u8]) -> Result<Vec<u8>, Refusal> {
    let mut out = room((a.len() + b.len()).max(8) - 8);
    let length = join(a, b, &mut out)?;
    out.truncate(length);
    Ok(out)
}
