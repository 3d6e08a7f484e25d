//! The walk back alone.

use super::{MOST_CANDIDATES, MOST_CHARACTERS};
use crate::library::Answer;

/// The answer, and the word row as it is at exit.
pub struct Outcome {
    pub answer: Answer,
    pub word: Vec<u16>,
}

/// What the library has to do with these rows.
pub fn walk_back(start: &[u16], end: &[u16], left: &[u16], n: u32, word: &[u16]) -> Outcome {
    let mut outcome = Outcome {
        answer: Answer::done(0, 0),
        word: word.to_vec(),
    };
    match words(start, end, left, n, word.len()) {
        Ok(words) => {
            outcome.answer = Answer::done(words.len(), 0);
            outcome.word[..words.len()].copy_from_slice(&words);
        }
        Err(refusal) => outcome.answer = refusal,
    }
    outcome
}

/// The tests in document 01's order, and then the walk.
fn words(
    start: &[u16],
    end: &[u16],
    left: &[u16],
    n: u32,
    word_len: usize,
) -> Result<Vec<u16>, Answer> {
    let c = start.len();
    if n > MOST_CHARACTERS as u32 {
        return Err(Answer::refused(2, 0));
    }
    if end.len() != c {
        return Err(Answer::refused(3, 0));
    }
    if c > MOST_CANDIDATES {
        return Err(Answer::refused(4, 0));
    }
    if left.len() < c + 2 || word_len < n as usize {
        return Err(Answer::refused(7, 0));
    }
    chain(start, end, left, n as usize).ok_or(Answer::refused(13, 0))
}

/// The candidates on the way from the end mark to the start mark, in sentence order, or nothing
/// where a link is broken. Every right link lowers the position, so the walk ends.
fn chain(start: &[u16], end: &[u16], left: &[u16], n: usize) -> Option<Vec<u16>> {
    let c = start.len();
    let (mut entry, mut position) = (c + 1, n);
    let mut backwards = Vec::new();
    loop {
        let link = usize::from(left[entry]);
        if link == 0 && position == 0 {
            backwards.reverse();
            return Some(backwards);
        }
        if link == 0 || link > c {
            return None;
        }
        let candidate = link - 1;
        let (from, to) = (start[candidate].into(), end[candidate].into());
        if from >= to || to != position {
            return None;
        }
        backwards.push(candidate as u16);
        (entry, position) = (link, from);
    }
}

#[cfg(test)]
mod tests {
    use super::*;

    const NONE: u16 = 65_535;

    /// The model on a word row of four places that hold 9, against values written out by hand.
    fn held(spans: &[(u16, u16)], left: &[u16], n: u32, answer: Answer, word: [u16; 4]) {
        let (start, end): (Vec<u16>, Vec<u16>) = spans.iter().copied().unzip();
        let outcome = walk_back(&start, &end, left, n, &[9; 4]);
        assert_eq!(outcome.answer, answer);
        assert_eq!(outcome.word, word);
    }

    // Document 01's examples A, B, C, E and H, links that rise, and the refusals.
    #[test]
    fn the_model_holds_the_examples() {
        let done = |count| Answer::done(count, 0);
        let refused = |number| Answer::refused(number, 0);
        let b = [(0, 1), (0, 2), (1, 2), (1, 3), (2, 3)];
        held(&[], &[NONE, 0], 0, done(0), [9; 4]);
        held(&b, &[NONE, 0, 0, 1, 1, 2, 5], 3, done(2), [1, 4, 9, 9]);
        held(&b, &[NONE, 0, 0, 1, 1, 3, 5], 3, done(3), [0, 2, 4, 9]);
        held(&[(0, 1)], &[NONE, 0, NONE], 2, refused(13), [9; 4]);
        let h = [(0, 2), (1, 2)];
        held(&h, &[NONE, 0, NONE, 1], 2, done(1), [0, 9, 9, 9]);
        let rising = [(1, 2), (0, 1)];
        held(&rising, &[NONE, 2, 0, 1], 2, done(2), [1, 0, 9, 9]);

        held(&b, &[NONE, 0, 0, 1, 1, 2, 6], 3, refused(13), [9; 4]);
        held(&b, &[NONE, 0, 0, 1, 1, 1, 5], 3, refused(13), [9; 4]);
        held(&b, &[NONE, 0, 0, 1, 1, 0, 5], 3, refused(13), [9; 4]);
        held(&[(0, 0)], &[NONE, 0, 1], 0, refused(13), [9; 4]);
        held(&b, &[NONE, 0, 0, 1, 1, 2], 3, refused(7), [9; 4]);
        held(&[(0, 5)], &[NONE, 0, 1], 5, refused(7), [9; 4]);
        held(&[(0, 1)], &[NONE, 0, 1], 65_537, refused(2), [9; 4]);
    }
}
