//! What the library writes.

use std::fmt::{self, Debug, Formatter};
use std::iter::successors;

use crate::{MOST_CANDIDATES, MOST_CHARACTERS, NONE};

/// The rows that the library writes: made once, and lent to one call after the other.
pub struct Rows {
    pub(crate) offset: Vec<u32>,
    pub(crate) run: Vec<u16>,
    pub(crate) first: Vec<u16>,
    pub(crate) last: Vec<u16>,
    pub(crate) left: Vec<u16>,
    pub(crate) cost: Vec<i32>,
    pub(crate) next: Vec<u16>,
    pub(crate) word_offset: Vec<u32>,
    pub(crate) word_id: Vec<u32>,
    pub(crate) word_kind: Vec<u8>,
    /// What the last call has filled, if it was one that fills the lattice.
    pub(crate) filled: Option<Filled>,
}

/// The sizes of the job whose lattice the rows hold.
#[derive(Clone, Copy)]
pub(crate) struct Filled {
    pub(crate) bytes: usize,
    pub(crate) candidates: usize,
}

impl Rows {
    /// Rows with room for every job: some 210,000 bytes.
    pub fn new() -> Rows {
        Rows::with_room(MOST_CHARACTERS, MOST_CANDIDATES)
    }

    /// Rows with room for texts of so many characters and jobs of so many candidates; larger ones
    /// are refused. Room beyond [`MOST_CHARACTERS`] and [`MOST_CANDIDATES`] could never be used and
    /// is not made.
    pub fn with_room(characters: usize, candidates: usize) -> Rows {
        let characters = characters.min(MOST_CHARACTERS);
        let candidates = candidates.min(MOST_CANDIDATES);
        Rows {
            offset: vec![0; characters + 1],
            run: vec![0; characters + 1],
            first: vec![0; characters + 1],
            last: vec![0; characters + 1],
            left: vec![0; candidates + 2],
            cost: vec![0; candidates + 2],
            next: vec![0; candidates + 2],
            word_offset: vec![0; characters],
            word_id: vec![0; characters],
            word_kind: vec![0; characters],
            filled: None,
        }
    }

    /// The lattice of the last call, if that was a call of [`segment`](crate::segment) that filled
    /// it: one that found words, or one refused with [`NoPath`](crate::Refusal::NoPath). After any
    /// other refusal there is none to be seen.
    pub fn lattice(&self) -> Option<Lattice<'_>> {
        self.filled.map(|filled| self.lattice_of(filled))
    }

    pub(crate) fn lattice_of(&self, filled: Filled) -> Lattice<'_> {
        // Offsets rise up to place n, where the text's length stands.
        let is_end = |&offset: &u32| offset as usize == filled.bytes;
        let n = self.offset.iter().position(is_end);
        let positions = n.expect("a filled offset row has the text's length") + 1;
        let entries = filled.candidates + 2;
        Lattice {
            offset: &self.offset[..positions],
            run: &self.run[..positions],
            first: &self.first[..positions],
            last: &self.last[..positions],
            left: &self.left[..entries],
            cost: &self.cost[..entries],
            next: &self.next[..entries],
        }
    }
}

impl Default for Rows {
    fn default() -> Rows {
        Rows::new()
    }
}

impl Debug for Rows {
    fn fmt(&self, f: &mut Formatter<'_>) -> fmt::Result {
        f.debug_struct("Rows")
            .field("characters", &self.word_id.len())
            .field("candidates", &(self.left.len() - 2))
            .finish_non_exhaustive()
    }
}

/// The lattice behind an answer, as the library wrote it: n + 1 places for n characters, c + 2
/// places for c candidates. Entry 0 is the start mark, entry k + 1 is candidate k, entry c + 1 is
/// the end mark.
///
/// In the raw rows [`NONE`] means "none"; [`entry`](Lattice::entry) and
/// [`ending_at`](Lattice::ending_at) read them.
#[derive(Clone, Copy, Debug)]
#[non_exhaustive]
pub struct Lattice<'r> {
    /// The byte at which each character starts, and at place n the text's length.
    pub offset: &'r [u32],
    /// How many kanji follow from each character on.
    pub run: &'r [u16],
    /// The lowest reached entry that ends at each position.
    pub first: &'r [u16],
    /// The highest reached entry that ends at each position.
    pub last: &'r [u16],
    /// The best entry before each entry.
    pub left: &'r [u16],
    /// What each entry costs with all before it; 0 where it is not reached.
    pub cost: &'r [i32],
    /// The next higher reached entry that ends where each entry ends.
    pub next: &'r [u16],
}

/// An entry that is reached.
#[derive(Clone, Copy, Debug, PartialEq, Eq, Hash)]
pub struct Entry {
    /// The best entry before it; only the start mark has none.
    pub left: Option<usize>,
    /// What it costs with all before it.
    pub cost: i32,
    /// The next higher reached entry that ends at the same position.
    pub next: Option<usize>,
}

impl<'r> Lattice<'r> {
    /// The entry of a number, if there is one and it is reached.
    pub fn entry(&self, number: usize) -> Option<Entry> {
        let left = link(*self.left.get(number)?);
        (number == 0 || left.is_some()).then(|| Entry {
            left,
            cost: self.cost[number],
            next: link(self.next[number]),
        })
    }

    /// The numbers of the reached entries that end at a position, from the lowest up.
    pub fn ending_at(&self, position: usize) -> impl Iterator<Item = usize> + 'r {
        let Lattice { first, next, .. } = *self;
        let first = first.get(position).and_then(|&first| link(first));
        successors(first, move |&entry| link(next[entry]))
    }

    /// The furthest position up to which listed words cover the text: where to look after
    /// [`NoPath`](crate::Refusal::NoPath).
    pub fn furthest(&self) -> usize {
        let reached = self.first.iter().rposition(|&first| first != NONE);
        reached.unwrap_or(0)
    }
}

/// The entry that a place of a row names.
fn link(entry: u16) -> Option<usize> {
    (entry != NONE).then_some(usize::from(entry))
}
