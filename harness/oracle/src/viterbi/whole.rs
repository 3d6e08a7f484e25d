//! Drives the Rust's `set_text_with_options`, with its own main loop and end of sentence. The
//! candidates come out of a stand-in dictionary and have their numbers as ids; extras come out of a
//! stand-in space table, which is not asked at position 0. All words are system words.

use super::direct::mode;
use super::slots::Slots;
use super::{Lattice, LatticeOptions, WordEntry, WordId};
use crate::dictionary::character_definition::CharacterDefinition;
use crate::dictionary::prefix_dictionary::{PrefixDictionary, Word};
use crate::dictionary::unknown_dictionary::UnknownDictionary;
use crate::space_penalty::SpacePenaltyTable;
use crate::{Answer, Job, Matrix, Rows};

/// What is used again from job to job.
pub struct Whole {
    lattice: Lattice,
    tokens: Vec<(usize, WordId)>,
    dictionary: PrefixDictionary,
    spaces: SpacePenaltyTable,
    slots: Slots,
}

impl Whole {
    pub fn new() -> Option<Whole> {
        Some(Whole {
            lattice: Lattice::default(),
            tokens: Vec::new(),
            dictionary: PrefixDictionary::default(),
            spaces: SpacePenaltyTable::default(),
            slots: Slots::default(),
        })
    }

    /// The job, or nothing if a first word's cost and extra together are no i16.
    pub fn run(&mut self, job: &Job, matrix: &Matrix) -> Option<Answer> {
        self.fill(job)?;
        let mode = mode(job);
        let mut options = LatticeOptions::new(&mode);
        options.space_penalty = Some(&self.spaces);
        self.lattice.set_text_with_options(
            &self.dictionary,
            &None,
            &CharacterDefinition,
            &UnknownDictionary,
            &matrix.0,
            job.text,
            &options,
        );
        self.lattice.tokens_offset_into(&mut self.tokens);
        Some(self.lattice.answer(&self.tokens))
    }

    /// What the last job left, in document 01's form. Ids and kinds are those of the candidates.
    pub fn rows(&mut self, job: &Job, rows: &mut Rows) {
        let words = &self.dictionary.words;
        let handed = |k: usize| WordEntry::deserialize(&words[k].entry, true);
        self.slots.rows(&self.lattice, job, handed, rows);
        if self.lattice.end_mark().is_some() {
            for &(offset, word) in &self.tokens {
                let k = word.id() as usize;
                let [a, b, c, d, ..] = job.entry[k];
                rows.word_offset.push(offset as u32);
                rows.word_id.push(u32::from_le_bytes([a, b, c, d]));
                rows.word_kind.push(job.kind[k]);
            }
        }
    }

    fn fill(&mut self, job: &Job) -> Option<()> {
        self.dictionary.characters = job.text.chars().count();
        self.dictionary.words.clear();
        self.spaces.extra.clear();
        self.spaces.extra.extend_from_slice(job.extra);
        for (k, bytes) in job.entry.iter().enumerate() {
            let (start, end, mut entry) = (job.start[k], job.end[k], *bytes);
            entry[..4].copy_from_slice(&(k as u32).to_le_bytes());
            if start == 0 {
                let cost = i16::from_le_bytes([entry[4], entry[5]]).checked_add(job.extra[k])?;
                entry[4..6].copy_from_slice(&cost.to_le_bytes());
            }
            self.dictionary.words.push(Word { start, end, entry });
        }
        Some(())
    }
}
