//! The whole job.

use super::Answer;

/// What a job is given, but for the rows it writes.
#[derive(Clone, Copy)]
pub struct Given<'a> {
    pub text: &'a [u8],
    pub start: &'a [u16],
    pub end: &'a [u16],
    pub kind: &'a [u8],
    pub extra: &'a [i16],
    pub entry: &'a [u8],
    pub height: u32,
    pub width: u32,
    pub matrix: &'a [i16],
    pub mode: u32,
    pub penalty: Penalty,
}

/// The four numbers of Decompose.
#[derive(Clone, Copy, Debug, Default, PartialEq, Eq)]
pub struct Penalty {
    pub kanji_threshold: u32,
    pub kanji_price: u32,
    pub other_threshold: u32,
    pub other_price: u32,
}

/// The ten rows that a job writes, in the header's order: lent, as vectors or between guards.
#[derive(Clone, Debug, Default, PartialEq, Eq)]
pub struct Rows<U32, U16, I32, U8> {
    pub offset: U32,
    pub run: U16,
    pub first: U16,
    pub last: U16,
    pub left: U16,
    pub cost: I32,
    pub next: U16,
    pub word_offset: U32,
    pub word_id: U32,
    pub word_kind: U8,
}

/// The rows as they are lent to the library.
pub type Lent<'a> = Rows<&'a mut [u32], &'a mut [u16], &'a mut [i32], &'a mut [u8]>;

extern "C" {
    fn jumelavorp_segment(
        text: *const u8,
        text_len: usize,
        start: *const u16,
        start_len: usize,
        end: *const u16,
        end_len: usize,
        kind: *const u8,
        kind_len: usize,
        extra: *const i16,
        extra_len: usize,
        entry: *const u8,
        entry_len: usize,
        height: u32,
        width: u32,
        matrix: *const i16,
        matrix_len: usize,
        mode: u32,
        kanji_threshold: u32,
        kanji_price: u32,
        other_threshold: u32,
        other_price: u32,
        offset: *mut u32,
        offset_len: usize,
        run: *mut u16,
        run_len: usize,
        first: *mut u16,
        first_len: usize,
        last: *mut u16,
        last_len: usize,
        left: *mut u16,
        left_len: usize,
        cost: *mut i32,
        cost_len: usize,
        next: *mut u16,
        next_len: usize,
        word_offset: *mut u32,
        word_offset_len: usize,
        word_id: *mut u32,
        word_id_len: usize,
        word_kind: *mut u8,
        word_kind_len: usize,
    ) -> Answer;
}

/// Calls the library.
pub fn segment(given: Given, rows: Lent) -> Answer {
    // SAFETY: slices are what the library asks for. Their pointers are non-null and aligned
    // even where they are empty, they cover their lengths, and nothing overlaps a written one.
    unsafe {
        jumelavorp_segment(
            given.text.as_ptr(),
            given.text.len(),
            given.start.as_ptr(),
            given.start.len(),
            given.end.as_ptr(),
            given.end.len(),
            given.kind.as_ptr(),
            given.kind.len(),
            given.extra.as_ptr(),
            given.extra.len(),
            given.entry.as_ptr(),
            given.entry.len(),
            given.height,
            given.width,
            given.matrix.as_ptr(),
            given.matrix.len(),
            given.mode,
            given.penalty.kanji_threshold,
            given.penalty.kanji_price,
            given.penalty.other_threshold,
            given.penalty.other_price,
            rows.offset.as_mut_ptr(),
            rows.offset.len(),
            rows.run.as_mut_ptr(),
            rows.run.len(),
            rows.first.as_mut_ptr(),
            rows.first.len(),
            rows.last.as_mut_ptr(),
            rows.last.len(),
            rows.left.as_mut_ptr(),
            rows.left.len(),
            rows.cost.as_mut_ptr(),
            rows.cost.len(),
            rows.next.as_mut_ptr(),
            rows.next.len(),
            rows.word_offset.as_mut_ptr(),
            rows.word_offset.len(),
            rows.word_id.as_mut_ptr(),
            rows.word_id.len(),
            rows.word_kind.as_mut_ptr(),
            rows.word_kind.len(),
        )
    }
}
