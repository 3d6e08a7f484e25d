//! Drives the Rust's own functions with any job: the candidates go in one by one, in list order. The
//! main loop and the end of sentence are inline in the Rust, and are said again here.

use super::slots::Slots;
use super::{Edge, Lattice, LatticeOptions, LexType, WordEntry, WordId};
use crate::dictionary::character_definition::CharacterDefinition;
use crate::dictionary::prefix_dictionary::PrefixDictionary;
use crate::mode::{Mode, Penalty};
use crate::{Answer, Job, Matrix, Rows};

/// What is used again from job to job, so that a job allocates only where it is larger than all before.
pub struct Direct {
    pub(super) lattice: Lattice,
    pub(super) tokens: Vec<(usize, WordId)>,
    slots: Slots,
}

impl Direct {
    pub fn new() -> Option<Direct> {
        Some(Direct {
            lattice: Lattice::default(),
            tokens: Vec::new(),
            slots: Slots::default(),
        })
    }

    /// The whole job, from the characters to the walk back; this is what a bench may time.
    pub fn run(&mut self, job: &Job, matrix: &Matrix) -> Answer {
        let mode = mode(job);
        self.begin(job.text, &mode);
        let spans = job.start.iter().zip(job.end);
        let rest = job.entry.iter().zip(job.kind).zip(job.extra);
        for ((&start, &end), ((entry, &kind), &extra)) in spans.zip(rest) {
            self.add(
                [start.into(), end.into()],
                word_entry(entry, kind),
                extra.into(),
                matrix,
                &mode,
            );
        }
        self.finish(matrix, &mode);
        self.lattice.tokens_offset_into(&mut self.tokens);
        self.lattice.answer(&self.tokens)
    }

    /// What the last job left, in document 01's form.
    pub fn rows(&mut self, job: &Job, rows: &mut Rows) {
        let handed = |k: usize| word_entry(&job.entry[k], job.kind[k]);
        self.slots.rows(&self.lattice, job, handed, rows);
        if self.lattice.end_mark().is_some() {
            for &(offset, word) in &self.tokens {
                rows.word_offset.push(offset as u32);
                rows.word_id.push(word.id());
                rows.word_kind.push(kind(word.lex_type()));
            }
        }
    }

    /// What `set_text_with_options` does before its main loop.
    pub(super) fn begin(&mut self, text: &str, mode: &Mode) {
        let lattice = &mut self.lattice;
        lattice.clear();
        lattice.prepare_char_buffers(
            &PrefixDictionary::default(),
            &CharacterDefinition,
            text,
            &LatticeOptions::new(mode),
        );
        let n = lattice.chars_buf.len();
        lattice.record_and_grow(n);
        lattice.penalty_cache_pos = usize::MAX;
        lattice.ends_at[0].push(Edge {
            path_cost: 0,
            left_index: u16::MAX,
            ..Edge::default()
        });
    }

    /// What its main loop does with a word that it has found.
    pub(super) fn add(
        &mut self,
        [start, end]: [usize; 2],
        word: WordEntry,
        extra: i32,
        matrix: &Matrix,
        mode: &Mode,
    ) {
        let kanji_only = self.lattice.is_kanji_all(start, end - start);
        let edge = Lattice::create_edge(word, start, kanji_only);
        (self.lattice).add_edge_in_lattice(edge, end, &matrix.0, mode, extra);
    }

    /// What it does behind its main loop.
    pub(super) fn finish(&mut self, matrix: &Matrix, mode: &Mode) {
        let n = self.lattice.last_n_chars;
        let row = matrix.0.row(0);
        let mut least = i32::MAX;
        let mut left = None;
        for (i, edge) in self.lattice.ends_at[n].iter().enumerate() {
            let joined = edge.path_cost + i32::from(row[usize::from(edge.right_id)]);
            let cost = match mode {
                Mode::Normal => joined,
                Mode::Decompose(penalty) => {
                    joined.saturating_add(penalty.penalty(edge, n - usize::from(edge.start_char)))
                }
            };
            if cost < least {
                (least, left) = (cost, Some(i as u16));
            }
        }
        if let Some(left_index) = left {
            self.lattice.ends_at[n].push(Edge {
                path_cost: least,
                left_index,
                start_char: n as u16,
                ..Edge::default()
            });
        }
    }
}

/// The Rust's mode for a job.
pub(super) fn mode(job: &Job) -> Mode {
    match job.mode {
        crate::Mode::Normal => Mode::Normal,
        crate::Mode::Decompose {
            kanji_threshold,
            kanji_price,
            other_threshold,
            other_price,
        } => Mode::Decompose(Penalty {
            kanji_penalty_length_threshold: kanji_threshold as usize,
            kanji_penalty_length_penalty: kanji_price as i32,
            other_penalty_length_threshold: other_threshold as usize,
            other_penalty_length_penalty: other_price as i32,
        }),
    }
}

/// The ten bytes carry no kind, and the Rust reads system and user words only from them.
pub(super) fn word_entry(bytes: &[u8; 10], kind: u8) -> WordEntry {
    let mut entry = WordEntry::deserialize(bytes, kind == 0);
    if kind == 2 {
        entry.word_id = WordId::new(LexType::Unknown, entry.word_id.id());
    }
    entry
}

pub(super) fn kind(lexicon: LexType) -> u8 {
    match lexicon {
        LexType::System => 0,
        LexType::User => 1,
        LexType::Unknown => 2,
    }
}
