//! The functions of `include/jumelavorp.h`, each behind a safe call. No other module is unsafe.

use crate::{CandidateRows, Matrix, Mode, Refusal, Rows};

/// `jumelavorp_answer`.
#[repr(C)]
pub struct Answer {
    pub number: u32,
    pub place: u32,
    pub count: u32,
    pub cost: i32,
}

impl Answer {
    /// The count and the cost of answer 0; any other answer is a refusal.
    pub fn done(self) -> Result<(usize, i32), Refusal> {
        match self.number {
            0 => Ok((self.count as usize, self.cost)),
            number => Err(Refusal::of(number, self.place as usize)),
        }
    }
}

extern "C" {
    fn jumelavorp_characters(
        text: *const u8,
        text_len: usize,
        offset: *mut u32,
        offset_len: usize,
        run: *mut u16,
        run_len: usize,
    ) -> Answer;

    fn jumelavorp_segment(
        text: *const u8,
        text_len: usize,
        start: *const u16,
        start_len: usize,
        end: *const u16,
        end_len: usize,
        kind: *const u8,
        kind_len: usize,
        extra: *const i16,
        extra_len: usize,
        entry: *const u8,
        entry_len: usize,
        height: u32,
        width: u32,
        matrix: *const i16,
        matrix_len: usize,
        mode: u32,
        kanji_threshold: u32,
        kanji_price: u32,
        other_threshold: u32,
        other_price: u32,
        offset: *mut u32,
        offset_len: usize,
        run: *mut u16,
        run_len: usize,
        first: *mut u16,
        first_len: usize,
        last: *mut u16,
        last_len: usize,
        left: *mut u16,
        left_len: usize,
        cost: *mut i32,
        cost_len: usize,
        next: *mut u16,
        next_len: usize,
        word_offset: *mut u32,
        word_offset_len: usize,
        word_id: *mut u32,
        word_id_len: usize,
        word_kind: *mut u8,
        word_kind_len: usize,
    ) -> Answer;

    fn jumelavorp_walk_back(
        start: *const u16,
        start_len: usize,
        end: *const u16,
        end_len: usize,
        left: *const u16,
        left_len: usize,
        n: u32,
        word: *mut u16,
        word_len: usize,
    ) -> Answer;
}

pub fn characters(text: &[u8], offset: &mut [u32], run: &mut [u16]) -> Answer {
    // SAFETY: the library asks of a pointer that it be non-null and aligned, also where the length
    // is 0, that it cover its length, and that no written row overlap another row or the text. A
    // slice's pointer is all of that, and a `&mut` slice overlaps no other that is lent beside it.
    unsafe {
        jumelavorp_characters(
            text.as_ptr(),
            text.len(),
            offset.as_mut_ptr(),
            offset.len(),
            run.as_mut_ptr(),
            run.len(),
        )
    }
}

pub fn segment(
    text: &[u8],
    candidates: CandidateRows<'_>,
    matrix: Matrix<'_>,
    mode: Mode,
    rows: &mut Rows,
) -> Answer {
    let CandidateRows {
        start,
        end,
        kind,
        extra,
        entry,
    } = candidates;
    let [mode, kanji_threshold, kanji_price, other_threshold, other_price] = match mode {
        Mode::Normal => [0; 5],
        Mode::Decompose(penalty) => [
            1,
            penalty.kanji_threshold,
            penalty.kanji_price,
            penalty.other_threshold,
            penalty.other_price,
        ],
    };
    // SAFETY: as in `characters`. Each written row is a vector of its own that `rows` owns and that
    // is borrowed for this call alone; what is only read is shared slices, which may overlap.
    unsafe {
        jumelavorp_segment(
            text.as_ptr(),
            text.len(),
            start.as_ptr(),
            start.len(),
            end.as_ptr(),
            end.len(),
            kind.as_ptr(),
            kind.len(),
            extra.as_ptr(),
            extra.len(),
            entry.as_ptr(),
            entry.len(),
            matrix.height,
            matrix.width,
            matrix.values.as_ptr(),
            matrix.values.len(),
            mode,
            kanji_threshold,
            kanji_price,
            other_threshold,
            other_price,
            rows.offset.as_mut_ptr(),
            rows.offset.len(),
            rows.run.as_mut_ptr(),
            rows.run.len(),
            rows.first.as_mut_ptr(),
            rows.first.len(),
            rows.last.as_mut_ptr(),
            rows.last.len(),
            rows.left.as_mut_ptr(),
            rows.left.len(),
            rows.cost.as_mut_ptr(),
            rows.cost.len(),
            rows.next.as_mut_ptr(),
            rows.next.len(),
            rows.word_offset.as_mut_ptr(),
            rows.word_offset.len(),
            rows.word_id.as_mut_ptr(),
            rows.word_id.len(),
            rows.word_kind.as_mut_ptr(),
            rows.word_kind.len(),
        )
    }
}

pub fn walk_back(start: &[u16], end: &[u16], left: &[u16], n: u32, word: &mut [u16]) -> Answer {
    // SAFETY: as in `characters`.
    unsafe {
        jumelavorp_walk_back(
            start.as_ptr(),
            start.len(),
            end.as_ptr(),
            end.len(),
            left.as_ptr(),
            left.len(),
            n,
            word.as_mut_ptr(),
            word.len(),
        )
    }
}
