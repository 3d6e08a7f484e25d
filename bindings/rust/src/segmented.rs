//! The whole job.

use std::fmt::{self, Debug, Formatter};
use std::iter::FusedIterator;
use std::ops::Range;

use crate::job::Text;
use crate::rows::Filled;
use crate::{ffi, Job, Kind, Lattice, Refusal, Rows};

/// Cuts a job's text into words at the least cost, or says why it cannot be done. Of cuts that cost
/// the same it takes the one that, compared from the last word to the first, has the lower
/// candidate number where they first differ.
///
/// What comes out borrows the rows, so no answer can be taken for that of a later call. Refused
/// with [`Refusal::NoPath`], the lattice can still be seen: [`Rows::lattice`].
pub fn segment<'a, 'r>(
    job: &Job<'a, '_>,
    rows: &'r mut Rows,
) -> Result<Segmented<'a, 'r>, Refusal> {
    let text = job.text;
    let filled = Filled {
        bytes: text.bytes().len(),
        candidates: job.candidates.start.len(),
    };
    rows.filled = None;
    let answer = ffi::segment(text.bytes(), job.candidates, job.matrix, job.mode, rows).done();
    if matches!(answer, Ok(_) | Err(Refusal::NoPath)) {
        rows.filled = Some(filled);
    }
    let (count, cost) = answer?;
    Ok(Segmented {
        text,
        rows,
        filled,
        count,
        cost,
    })
}

/// The words that a text was cut into, and what they cost. They cover the text without a gap, in no
/// more words than characters.
///
/// It borrows the text (`'a`) and the rows (`'r`): once the rows are used again, this answer is
/// gone.
///
/// ```compile_fail,E0499
/// # use jumelavorp::{segment, Candidates, Job, Matrix, Mode, Rows};
/// # let none = Candidates::new();
/// # let matrix = Matrix { height: 1, width: 1, values: &[7] };
/// # let job = Job::new("", &none, matrix, Mode::Normal);
/// # let mut rows = Rows::new();
/// let before = segment(&job, &mut rows)?;
/// let after = segment(&job, &mut rows)?;
/// assert_eq!(before.cost(), after.cost());
/// # Ok::<(), jumelavorp::Refusal>(())
/// ```
#[derive(Clone, Copy)]
pub struct Segmented<'a, 'r> {
    text: Text<'a>,
    rows: &'r Rows,
    filled: Filled,
    count: usize,
    cost: i32,
}

/// A word of the text.
#[derive(Clone, Debug, PartialEq, Eq, Hash)]
pub struct Word<'a> {
    /// The id in the word's entry.
    pub id: u32,
    /// Where the word comes from.
    pub kind: Kind,
    /// The bytes of the text that it takes.
    pub range: Range<usize>,
    /// The word as it stands in the text. It lives as long as the text does, whatever becomes of the
    /// rows and the lists.
    pub text: &'a str,
}

impl<'a, 'r> Segmented<'a, 'r> {
    /// What the words cost, with all joints and charges: the least that any cut can cost.
    pub fn cost(&self) -> i32 {
        self.cost
    }

    /// How many words there are.
    pub fn len(&self) -> usize {
        self.count
    }

    /// Whether there are no words, which is so for the empty text alone.
    pub fn is_empty(&self) -> bool {
        self.count == 0
    }

    /// The words in the order of the text.
    pub fn words(&self) -> Words<'a, 'r> {
        Words {
            segmented: *self,
            rest: 0..self.count,
        }
    }

    /// The word of a number from 0 on, if there are so many.
    pub fn get(&self, number: usize) -> Option<Word<'a>> {
        let offsets = &self.rows.word_offset[..self.count];
        let start = *offsets.get(number)? as usize;
        let behind = offsets.get(number + 1);
        let end = behind.map_or(self.text.bytes().len(), |&offset| offset as usize);
        let kind = Kind::from_number(self.rows.word_kind[number]);
        Some(Word {
            id: self.rows.word_id[number],
            kind: kind.expect("an accepted candidate's kind is one of the three"),
            range: start..end,
            text: self.text.part(start..end),
        })
    }

    /// The lattice behind this answer.
    pub fn lattice(&self) -> Lattice<'r> {
        self.rows.lattice_of(self.filled)
    }
}

impl Debug for Segmented<'_, '_> {
    fn fmt(&self, f: &mut Formatter<'_>) -> fmt::Result {
        f.debug_struct("Segmented")
            .field("cost", &self.cost)
            .field("words", &self.words().collect::<Vec<_>>())
            .finish_non_exhaustive()
    }
}

impl<'a, 'r> IntoIterator for Segmented<'a, 'r> {
    type Item = Word<'a>;
    type IntoIter = Words<'a, 'r>;

    fn into_iter(self) -> Words<'a, 'r> {
        self.words()
    }
}

impl<'a, 'r> IntoIterator for &Segmented<'a, 'r> {
    type Item = Word<'a>;
    type IntoIter = Words<'a, 'r>;

    fn into_iter(self) -> Words<'a, 'r> {
        self.words()
    }
}

/// The words of a [`Segmented`] text, one after the other, from either end.
#[derive(Clone, Debug)]
pub struct Words<'a, 'r> {
    segmented: Segmented<'a, 'r>,
    rest: Range<usize>,
}

impl<'a> Iterator for Words<'a, '_> {
    type Item = Word<'a>;

    fn next(&mut self) -> Option<Word<'a>> {
        self.segmented.get(self.rest.next()?)
    }

    fn size_hint(&self) -> (usize, Option<usize>) {
        self.rest.size_hint()
    }
}

impl DoubleEndedIterator for Words<'_, '_> {
    fn next_back(&mut self) -> Option<Self::Item> {
        self.segmented.get(self.rest.next_back()?)
    }
}

impl ExactSizeIterator for Words<'_, '_> {}

impl FusedIterator for Words<'_, '_> {}
