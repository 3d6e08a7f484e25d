//! Stands in for the Rust's unknown words: there are none.

use crate::dictionary::character_definition::CategoryId;
use crate::viterbi::WordEntry;

#[derive(Default)]
pub struct UnknownDictionary;

impl UnknownDictionary {
    pub fn lookup_word_ids(&self, _: CategoryId) -> &[u32] {
        &[]
    }

    pub fn word_entry(&self, _: u32) -> WordEntry {
        unreachable!("there are no unknown words")
    }
}
