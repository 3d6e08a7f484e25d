//! What is timed allocates nothing once it has had a job as large.

use oracle::{Direct, Job, Matrix, Mode};
use std::alloc::{GlobalAlloc, Layout, System};
use std::cell::Cell;

struct Counting;

thread_local! {
    static ALLOCATIONS: Cell<u64> = const { Cell::new(0) };
}

// SAFETY: everything is handed on to the system's allocator.
unsafe impl GlobalAlloc for Counting {
    unsafe fn alloc(&self, layout: Layout) -> *mut u8 {
        ALLOCATIONS.set(ALLOCATIONS.get() + 1);
        unsafe { System.alloc(layout) }
    }

    unsafe fn dealloc(&self, place: *mut u8, layout: Layout) {
        unsafe { System.dealloc(place, layout) }
    }
}

#[global_allocator]
static COUNTING: Counting = Counting;

/// How often a job allocates. Forty words of every length end and start at each position.
fn allocations(direct: &mut Direct, text: &str, mode: Mode) -> u64 {
    let n = text.chars().count() as u16;
    let spans = (0..n).flat_map(|start| (start + 1..=n).map(move |end| (start, end)));
    let spans: Vec<(u16, u16)> = spans.flat_map(|span| [span; 40]).collect();
    let [start, end] = [|span: &(u16, u16)| span.0, |span: &(u16, u16)| span.1]
        .map(|side| Vec::from_iter(spans.iter().map(side)));
    let job = Job {
        text,
        start: &start,
        end: &end,
        kind: &vec![2; spans.len()],
        extra: &vec![0; spans.len()],
        entry: &vec![[0; 10]; spans.len()],
        mode,
    };
    let matrix = Matrix::new(1, 1, &[0]);
    let before = ALLOCATIONS.get();
    assert_eq!(direct.run(&job, &matrix).number, 0);
    ALLOCATIONS.get() - before
}

#[test]
fn none_the_second_time() {
    let Some(mut direct) = Direct::new() else {
        return;
    };
    let decompose = Mode::Decompose {
        kanji_threshold: 2,
        kanji_price: 3_000,
        other_threshold: 7,
        other_price: 1_700,
    };
    for mode in [Mode::Normal, decompose] {
        assert!(allocations(&mut direct, "東京都府中市", mode) > 0);
        assert_eq!(allocations(&mut direct, "東京都府中市", mode), 0);
        assert_eq!(allocations(&mut direct, "東京", mode), 0);
        assert_eq!(allocations(&mut direct, "東京都府中市", mode), 0);
    }
}
