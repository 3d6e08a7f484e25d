//! The walk back alone, held against the model.

use super::Row;
use crate::library::{self, Answer};
use crate::model;
use crate::random::Random;
use crate::walks::Walk;

/// Buffers that are used again from case to case, and counts of what was seen.
pub struct Check {
    random: Random,
    start: Row<u16>,
    end: Row<u16>,
    left: Row<u16>,
    word: Row<u16>,
    seen: [u64; 14],
}

impl Check {
    pub fn new(seed: u64) -> Check {
        Check {
            random: Random::new(seed),
            start: Row::default(),
            end: Row::default(),
            left: Row::default(),
            word: Row::default(),
            seen: [0; 14],
        }
    }

    /// One case with a word row that always has room, and places to spare behind n.
    pub fn walk(&mut self, walk: &Walk) -> Answer {
        self.rows(walk, walk.n as usize + 3)
    }

    /// One case with a word row of this length: the answer, every place and every guard of it
    /// and of the three rows that are only read are compared.
    pub fn rows(&mut self, walk: &Walk, word_len: usize) -> Answer {
        self.lay_out(walk, word_len);

        let (start, end, left) = (&walk.start, &walk.end, &walk.left);
        let outcome = model::walk_back::walk_back(start, end, left, walk.n, self.word.lent());
        let answer = library::walk_back::walk_back(
            self.start.lent(),
            self.end.lent(),
            self.left.lent(),
            walk.n,
            self.word.lent_mut(),
        );

        assert_eq!(answer, outcome.answer, "{}", walk.shown());
        compare("start", &self.start, start, walk);
        compare("end", &self.end, end, walk);
        compare("left", &self.left, left, walk);
        compare("word", &self.word, &outcome.word, walk);
        self.seen[answer.number as usize] += 1;
        answer
    }

    /// The word row as the last case left it.
    pub fn word(&self) -> &[u16] {
        self.word.lent()
    }

    /// Around the rows that are read lie a candidate that would be right at one of the positions
    /// and a link that would be right after it: whoever reads them finds words that are not there.
    fn lay_out(&mut self, walk: &Walk, word_len: usize) {
        let bits = self.random.bits();
        let position = (bits >> 32) % (u64::from(walk.n.min(65_534)) + 1);
        self.start.lay_out(&walk.start, 0);
        self.end.lay_out(&walk.end, position as u16);
        self.left.lay_out(&walk.left, 0);
        self.word.refill(word_len, bits);
    }

    /// How many cases were compared.
    pub fn cases(&self) -> u64 {
        self.seen.iter().sum()
    }

    /// How many of them had this answer number.
    pub fn seen(&self, number: usize) -> u64 {
        self.seen[number]
    }
}

fn compare(name: &str, row: &Row<u16>, expected: &[u16], walk: &Walk) {
    if let Some(difference) = row.difference(expected) {
        panic!("{name} row, {}: {difference}", walk.shown());
    }
}
