//! The calls of the verified archive of tokens, with slices in place of
//! pointers.

mod raw {
    extern "C" {
        pub fn muon_front(text: *const u8, text_len: usize) -> usize;
        pub fn muon_token(text: *const u8, text_len: usize, at: usize, out: *mut u64);
    }
}

pub fn begin(text: &[u8]) -> usize {
    // SAFETY: pointer and length are those of one live slice.
    unsafe { raw::muon_front(text.as_ptr(), text.len()) }
}

pub fn next(text: &[u8], at: usize) -> [u64; 5] {
    // What the call does not write must not look like an answer.
    let mut out = [u64::MAX; 5];
    // SAFETY: as above, and `out` has the five numbers that are written.
    unsafe { raw::muon_token(text.as_ptr(), text.len(), at, out.as_mut_ptr()) };
    out
}
