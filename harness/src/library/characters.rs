//! The character table alone.

use super::Answer;

extern "C" {
    fn jumelavorp_characters(
        text: *const u8,
        text_len: usize,
        offset: *mut u32,
        offset_len: usize,
        run: *mut u16,
        run_len: usize,
    ) -> Answer;
}

/// Calls the library.
pub fn characters(text: &[u8], offset: &mut [u32], run: &mut [u16]) -> Answer {
    // SAFETY: slices are what the library asks for. Their pointers are non-null and aligned
    // even where they are empty, they cover their lengths, and no two of these overlap.
    unsafe {
        jumelavorp_characters(
            text.as_ptr(),
            text.len(),
            offset.as_mut_ptr(),
            offset.len(),
            run.as_mut_ptr(),
            run.len(),
        )
    }
}
