//! Bare passes over the same bytes. They calculate nothing: a call takes longer than its
//! floor, and how close to it one can come is not known.

/// The bytes as 64-bit words, added up.
pub fn sum_words(book: &[u8], sum: &mut [u64; 1]) {
    let words = book
        .chunks_exact(8)
        .map(|word| u64::from_le_bytes(word.try_into().expect("eight bytes")));
    sum[0] = words.fold(0, u64::wrapping_add);
}

/// One book's bytes and the rows of another behind them.
pub fn copy(a: &[u8], b: &[u8], out: &mut [u8], result: &mut [u64; 4]) {
    out[..a.len()].copy_from_slice(a);
    out[a.len()..].copy_from_slice(&b[8..]);
    *result = [0, 0, 0, out.len() as u64];
}

/// A book's bytes, and its length in the fourth entry.
pub fn copy_book<const N: usize>(book: &[u8], out: &mut [u8], result: &mut [u64; N]) {
    out.copy_from_slice(book);
    result.fill(0);
    result[3] = out.len() as u64;
}

/// The sum of words, byte by byte.
pub fn sum_bytes(book: &[u8], sum: &mut [u64; 1]) {
    let place = |at: usize| 1u64 << (8 * (at % 8));
    let bytes = book.iter().enumerate();
    sum[0] = bytes.fold(0, |sum, (at, byte)| {
        sum.wrapping_add(u64::from(*byte).wrapping_mul(place(at)))
    });
}

/// The copy, byte by byte.
pub fn copy_bytes(a: &[u8], b: &[u8], out: &mut [u8], result: &mut [u64; 4]) {
    let bytes = a.iter().chain(&b[8..]);
    let count = out.iter_mut().zip(bytes).map(|(to, from)| *to = *from);
    *result = [0, 0, 0, count.count() as u64];
}

/// The copy of a book, byte by byte.
pub fn copy_book_bytes<const N: usize>(book: &[u8], out: &mut [u8], result: &mut [u64; N]) {
    let count = out.iter_mut().zip(book).map(|(to, from)| *to = *from);
    let entry = |at: usize, length: u64| if at == 3 { length } else { 0 };
    let length = count.count() as u64;
    *result = std::array::from_fn(|at| entry(at, length));
}
