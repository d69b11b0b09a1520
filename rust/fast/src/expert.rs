//! The charge call of `expert/expert.c`.

extern "C" {
    fn expert_charge(
        book: *const u8,
        length: usize,
        table: *const u8,
        table_length: usize,
        out: *mut u64,
    );
}

/// Number, row, book; the six charges; the total; the rows taken; the specific charges of the
/// 32 currencies; their general charges.
pub fn charge(bytes: &[u8], table: &[u8], out: &mut [u64; 75]) {
    let (book, length) = (bytes.as_ptr(), bytes.len());
    // SAFETY: the pointers come from references with these lengths; the code reads the bytes
    // of book and table, writes 75 entries and keeps no pointer.
    unsafe { expert_charge(book, length, table.as_ptr(), table.len(), out.as_mut_ptr()) }
}
