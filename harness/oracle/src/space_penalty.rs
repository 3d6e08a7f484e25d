//! Stands in for the Rust's space table: every character is a space, and a word's price is its extra.

use crate::dictionary::character_definition::CharacterDefinition;
use crate::viterbi::WordId;

/// The extras by word id, which is the candidate number.
#[derive(Debug, Default)]
pub struct SpacePenaltyTable {
    pub extra: Vec<i16>,
}

impl SpacePenaltyTable {
    pub fn is_space(&self, _: char, _: &CharacterDefinition) -> bool {
        true
    }

    pub fn cost(&self, word: WordId) -> i32 {
        self.extra[word.id() as usize].into()
    }
}
