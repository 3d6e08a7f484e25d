//! The character table alone.

use super::{MOST_BYTES, MOST_CHARACTERS};
use crate::library::Answer;

/// The answer, and both rows as they are at exit.
pub struct Outcome {
    pub answer: Answer,
    pub offset: Vec<u32>,
    pub run: Vec<u16>,
}

/// Document 000's two blocks.
pub fn is_kanji(character: char) -> bool {
    matches!(character, '\u{4E00}'..='\u{9FAF}' | '\u{3400}'..='\u{4DBF}')
}

/// What the library has to do with this text and these rows.
pub fn characters(text: &[u8], offset: &[u32], run: &[u16]) -> Outcome {
    let mut outcome = Outcome {
        answer: Answer::done(0, 0),
        offset: offset.to_vec(),
        run: run.to_vec(),
    };
    match table(text, &mut outcome.offset, &mut outcome.run) {
        Ok(n) => outcome.answer = Answer::done(n, 0),
        Err(refusal) => outcome.answer = refusal,
    }
    outcome
}

/// Every test stands before the first write, so a refusal changes nothing.
fn table(text: &[u8], offset: &mut [u32], run: &mut [u16]) -> Result<usize, Answer> {
    if text.len() > MOST_BYTES {
        return Err(Answer::refused(2, 0));
    }
    let string = match std::str::from_utf8(text) {
        Ok(string) => string,
        Err(error) => return Err(Answer::refused(1, error.valid_up_to())),
    };
    let all: Vec<char> = string.chars().collect();
    let n = all.len();
    if n > MOST_CHARACTERS {
        return Err(Answer::refused(2, 0));
    }
    if offset.len() < n + 1 || run.len() < n + 1 {
        return Err(Answer::refused(7, 0));
    }

    let mut start = 0;
    for i in 0..n {
        offset[i] = start as u32;
        run[i] = all[i..].iter().take_while(|c| is_kanji(**c)).count() as u16;
        start += all[i].len_utf8();
    }
    offset[n] = text.len() as u32;
    run[n] = 0;
    Ok(n)
}

#[cfg(test)]
mod tests {
    use super::*;

    /// The model on rows of six places that hold 9, against values written out by hand.
    fn held(text: &[u8], answer: Answer, offset: [u32; 6], run: [u16; 6]) {
        let outcome = characters(text, &[9; 6], &[9; 6]);
        assert_eq!(outcome.answer, answer);
        assert_eq!(outcome.offset, offset);
        assert_eq!(outcome.run, run);
    }

    // Document 01's examples A, B and L, a broken run, and a text with no room.
    #[test]
    fn the_model_holds_the_examples() {
        let done = |count| Answer::done(count, 0);
        held(b"", done(0), [0, 9, 9, 9, 9, 9], [0, 9, 9, 9, 9, 9]);
        let b = [0xE6, 0x9D, 0xB1, 0xE4, 0xBA, 0xAC, 0xE9, 0x83, 0xBD];
        held(&b, done(3), [0, 3, 6, 9, 9, 9], [3, 2, 1, 0, 9, 9]);
        held(&[0xED, 0xA0, 0x80], Answer::refused(1, 0), [9; 6], [9; 6]);
        held(&[0x41, 0xC0, 0x80], Answer::refused(1, 1), [9; 6], [9; 6]);
        let last = [0xF4, 0x8F, 0xBF, 0xBF];
        held(&last, done(1), [0, 4, 9, 9, 9, 9], [0, 0, 9, 9, 9, 9]);
        let broken = "東京é\u{9FAF}\u{9FB0}".as_bytes();
        held(broken, done(5), [0, 3, 6, 8, 11, 14], [2, 1, 0, 1, 0, 0]);
        held(b"abcdef", Answer::refused(7, 0), [9; 6], [9; 6]);
    }
}
