//! The walk back alone.

use super::Answer;

extern "C" {
    fn jumelavorp_walk_back(
        start: *const u16,
        start_len: usize,
        end: *const u16,
        end_len: usize,
        left: *const u16,
        left_len: usize,
        n: u32,
        word: *mut u16,
        word_len: usize,
    ) -> Answer;
}

/// Calls the library.
pub fn walk_back(start: &[u16], end: &[u16], left: &[u16], n: u32, word: &mut [u16]) -> Answer {
    // SAFETY: slices are what the library asks for. Their pointers are non-null and aligned
    // even where they are empty, they cover their lengths, and nothing overlaps the written one.
    unsafe {
        jumelavorp_walk_back(
            start.as_ptr(),
            start.len(),
            end.as_ptr(),
            end.len(),
            left.as_ptr(),
            left.len(),
            n,
            word.as_mut_ptr(),
            word.len(),
        )
    }
}
