//! What a caller sees of the crate.

mod examples;
mod header;
mod random;
mod refusals;
mod rows;

use jumelavorp::{Candidate, Candidates, Job, Kind, Matrix, Mode, Penalty, Segmented, WordEntry};

/// The matrix of the paper's examples.
const FLAT: Matrix<'static> = Matrix {
    height: 1,
    width: 1,
    values: &[0],
};

/// Example C's penalty.
const PENALTY: Penalty = Penalty {
    kanji_threshold: 1,
    kanji_price: 500,
    other_threshold: 7,
    other_price: 0,
};

/// Example B's text.
const TOKYO_TO: &str = "東京都";

/// Example B's candidates.
fn tokyo_to() -> Candidates {
    listed(&[
        (0, 1, 300),
        (0, 2, 100),
        (1, 2, 200),
        (1, 3, 150),
        (2, 3, 120),
    ])
}

/// A system word with ids 0 and no extra.
fn candidate(start: u16, end: u16, id: u32, cost: i16) -> Candidate {
    let entry = WordEntry {
        id,
        cost,
        left_id: 0,
        right_id: 0,
    };
    Candidate {
        start,
        end,
        kind: Kind::System,
        extra: 0,
        entry,
    }
}

/// Such words from start, end and cost, each with its number for its id.
fn listed(words: &[(u16, u16, i16)]) -> Candidates {
    let numbered = (0..).zip(words);
    numbered
        .map(|(id, &(start, end, cost))| candidate(start, end, id, cost))
        .collect()
}

/// A job in Normal mode with the examples' matrix.
fn plain<'a, 'l>(text: &'a str, candidates: &'l Candidates) -> Job<'a, 'l> {
    Job::new(text, candidates, FLAT, Mode::Normal)
}

fn ids(segmented: Segmented<'_, '_>) -> Vec<u32> {
    segmented.words().map(|word| word.id).collect()
}
