//! The character table alone, held against the model.

use super::{in_halves, shown, Row, GUARD};
use crate::library::{self, Answer};
use crate::model;
use crate::random::Random;

/// Buffers that are used again from case to case, and counts of what was seen.
pub struct Check {
    random: Random,
    text: Vec<u8>,
    offset: Row<u32>,
    run: Row<u16>,
    seen: [u64; 8],
}

impl Check {
    pub fn new(seed: u64) -> Check {
        Check {
            random: Random::new(seed),
            text: Vec::new(),
            offset: Row::default(),
            run: Row::default(),
            seen: [0; 8],
        }
    }

    /// One case with rows that always have room, and places to spare behind n+1.
    pub fn text(&mut self, text: &[u8]) -> Answer {
        self.rows(text, text.len() + 3, text.len() + 3)
    }

    /// One case with rows of these lengths: answer, every place and every guard are compared.
    pub fn rows(&mut self, text: &[u8], offset_len: usize, run_len: usize) -> Answer {
        let salt = self.random.bits();
        self.offset.refill(offset_len, salt);
        self.run.refill(run_len, salt >> 32);
        let start = self.lay_out(text, salt >> 60);

        let outcome = model::characters::characters(text, self.offset.lent(), self.run.lent());
        let answer = library::characters::characters(
            &self.text[start..start + text.len()],
            self.offset.lent_mut(),
            self.run.lent_mut(),
        );

        assert_eq!(answer, outcome.answer, "{}", shown(text));
        if let Some(difference) = self.offset.difference(&outcome.offset) {
            panic!("offset row, {}: {difference}", shown(text));
        }
        if let Some(difference) = self.run.difference(&outcome.run) {
            panic!("run row, {}: {difference}", shown(text));
        }
        self.seen[answer.number as usize] += 1;
        answer
    }

    /// Lays the text between bytes that would complete a character cut short at its end: 80
    /// after ED and F4, BF after E0 and F0, either after the rest. Says where it starts, so that
    /// it is lent at every alignment.
    fn lay_out(&mut self, text: &[u8], bits: u64) -> usize {
        let around = [if bits & 8 == 0 { 0x80 } else { 0xBF }; GUARD + 7];
        let start = GUARD + (bits & 7) as usize;
        self.text.clear();
        self.text.extend_from_slice(&around[..start]);
        self.text.extend_from_slice(text);
        self.text.extend_from_slice(&around[..GUARD]);
        start
    }

    /// How many cases were compared.
    pub fn cases(&self) -> u64 {
        self.seen.iter().sum()
    }

    /// How many of them had this answer number.
    pub fn seen(&self, number: usize) -> u64 {
        self.seen[number]
    }
}

/// Does the work for every lead byte, half of them in a second thread, and counts the cases.
pub fn for_each_lead(work: impl Fn(&mut Check, u8) + Sync) -> u64 {
    let cases = in_halves(|half| {
        let mut check = Check::new(half as u64);
        let leads = (0..=255).skip(half).step_by(2);
        leads.for_each(|lead| work(&mut check, lead));
        check.cases()
    });
    cases.iter().sum()
}
