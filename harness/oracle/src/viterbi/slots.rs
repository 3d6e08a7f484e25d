//! Reads the Rust's slots as document 01's rows: the edges of a slot are the reached entries that end
//! there, in list order.

use super::{Edge, Lattice, LatticeOptions, WordEntry, WordId};
use crate::dictionary::character_definition::CharacterDefinition;
use crate::dictionary::prefix_dictionary::PrefixDictionary;
use crate::mode::{Mode, Penalty};
use crate::{Answer, Job, NONE, Rows};

impl Lattice {
    /// The end mark's edge: no word starts at n, and the start mark has no left.
    pub(super) fn end_mark(&self) -> Option<&Edge> {
        let n = self.last_n_chars;
        let last = self.ends_at[n].last()?;
        (usize::from(last.start_char) == n && last.left_index != u16::MAX).then_some(last)
    }

    /// Without an end mark the tokens are of no use, and the answer is 12.
    pub(super) fn answer(&self, tokens: &[(usize, WordId)]) -> Answer {
        match self.end_mark() {
            Some(end) => Answer {
                number: 0,
                count: tokens.len() as u32,
                cost: end.path_cost,
            },
            None => Answer {
                number: 12,
                count: 0,
                cost: 0,
            },
        }
    }
}

/// The entry numbers of all edges, slot after slot, and a lattice that prepares kanji runs.
#[derive(Default)]
pub(super) struct Slots {
    number: Vec<u16>,
    /// Where the slot of each position begins in `number`.
    begin: Vec<usize>,
    /// How many edges of each slot have a number.
    taken: Vec<usize>,
    runs: Lattice,
}

impl Slots {
    /// Fills all rows but the words'. `handed` says as which word a candidate was handed in.
    pub(super) fn rows(
        &mut self,
        lattice: &Lattice,
        job: &Job,
        handed: impl Fn(usize) -> WordEntry,
        rows: &mut Rows,
    ) {
        self.characters(lattice, job, rows);
        self.count(lattice, job, handed);
        self.entries(lattice, job.start.len(), rows);
        rows.word_offset.clear();
        rows.word_id.clear();
        rows.word_kind.clear();
    }

    /// The Rust leaves runs at 0 in Normal; there they come from its preparation in Decompose.
    fn characters(&mut self, lattice: &Lattice, job: &Job, rows: &mut Rows) {
        let table = &lattice.char_info_buffer;
        rows.offset.clear();
        rows.offset.extend(table.iter().map(|of| of.byte_offset));
        let prepared = match job.mode {
            crate::Mode::Decompose { .. } => table,
            crate::Mode::Normal => {
                assert!(table.iter().all(|of| of.kanji_run_char_len == 0));
                self.runs.prepare_char_buffers(
                    &PrefixDictionary::default(),
                    &CharacterDefinition,
                    job.text,
                    &LatticeOptions::new(&Mode::Decompose(Penalty::default())),
                );
                &self.runs.char_info_buffer
            }
        };
        rows.run.clear();
        (rows.run).extend(prepared.iter().map(|of| of.kanji_run_char_len as u16));
    }

    /// Gives every edge its entry number, and looks whether it is the word that has this number.
    fn count(&mut self, lattice: &Lattice, job: &Job, handed: impl Fn(usize) -> WordEntry) {
        let (n, c) = (lattice.last_n_chars, job.start.len());
        let slots = &lattice.ends_at[..=n];
        let mut all = 0;
        self.begin.clear();
        for slot in slots {
            self.begin.push(all);
            all += slot.len();
        }
        self.number.clear();
        self.number.resize(all, NONE);
        self.taken.clear();
        self.taken.resize(n + 1, 0);

        assert_eq!(slots[0][0].left_index, u16::MAX);
        self.take(0, 0);
        for k in 0..c {
            let (start, end) = (usize::from(job.start[k]), usize::from(job.end[k]));
            if !slots[start].is_empty() {
                let edge = &slots[end][self.taken[end]];
                assert!(is_word(edge, start, &handed(k)), "candidate {k}: {edge:?}");
                self.take(end, k + 1);
            }
        }
        if lattice.end_mark().is_some() {
            self.take(n, c + 1);
        }
        let whole = slots.iter().map(Vec::len).eq(self.taken.iter().copied());
        assert!(whole, "an edge is none of the candidates");
    }

    fn take(&mut self, end: usize, number: usize) {
        self.number[self.begin[end] + self.taken[end]] = number as u16;
        self.taken[end] += 1;
    }

    fn entries(&self, lattice: &Lattice, c: usize, rows: &mut Rows) {
        let n = lattice.last_n_chars;
        fill(&mut rows.first, n + 1, NONE);
        fill(&mut rows.last, n + 1, NONE);
        fill(&mut rows.left, c + 2, NONE);
        fill(&mut rows.cost, c + 2, 0);
        fill(&mut rows.next, c + 2, NONE);
        for (position, slot) in lattice.ends_at[..=n].iter().enumerate() {
            let begin = self.begin[position];
            let numbers = &self.number[begin..begin + slot.len()];
            rows.first[position] = numbers.first().copied().unwrap_or(NONE);
            rows.last[position] = numbers.last().copied().unwrap_or(NONE);
            for (i, edge) in slot.iter().enumerate() {
                let number = usize::from(numbers[i]);
                rows.cost[number] = edge.path_cost;
                rows.next[number] = numbers.get(i + 1).copied().unwrap_or(NONE);
                if edge.left_index != u16::MAX {
                    let left = self.begin[usize::from(edge.start_char)];
                    rows.left[number] = self.number[left + usize::from(edge.left_index)];
                }
            }
        }
    }
}

fn fill<T: Copy>(row: &mut Vec<T>, places: usize, value: T) {
    row.clear();
    row.resize(places, value);
}

fn is_word(edge: &Edge, start: usize, word: &WordEntry) -> bool {
    let ids = (edge.left_id, edge.right_id) == (word.left_id, word.right_id);
    let word = (edge.word_id(), edge.word_cost) == (word.word_id, word.word_cost);
    usize::from(edge.start_char) == start && ids && word
}
