//! What comes in.

use std::ops::Range;

use crate::CandidateRows;

/// What it costs to join two words: `height` × `width` values.
///
/// Joining an earlier word with right id r to a later word with left id l costs the value at
/// l × `width` + r. The start of the text has right id 0, its end left id 0.
#[derive(Clone, Copy, Debug)]
pub struct Matrix<'a> {
    /// How many left ids there are: 1 to 65,535.
    pub height: u32,
    /// How many right ids there are: 1 to 65,535.
    pub width: u32,
    /// The values, row after row.
    pub values: &'a [i16],
}

/// Whether long words are charged.
#[derive(Clone, Copy, Debug, Default, PartialEq, Eq, Hash)]
pub enum Mode {
    /// Nothing is charged beside the costs of words and joints.
    #[default]
    Normal,
    /// Long words are charged, so that compounds come out in parts.
    Decompose(Penalty),
}

/// From which length on a word is charged, and how much for each character more.
///
/// A word of L characters is charged (L − threshold) × price if L is above the threshold; with the
/// kanji numbers if all its characters are kanji, otherwise with the other ones.
#[derive(Clone, Copy, Debug, PartialEq, Eq, Hash)]
pub struct Penalty {
    /// The longest word of kanji alone that is not charged: up to 65,535.
    pub kanji_threshold: u32,
    /// The price of each further character of such a word: up to 32,767.
    pub kanji_price: u32,
    /// The longest other word that is not charged: up to 65,535.
    pub other_threshold: u32,
    /// The price of each further character of such a word: up to 32,767.
    pub other_price: u32,
}

/// All that one call of [`segment`](crate::segment) works on. It borrows the text (`'a`) and the
/// lists (`'l`), and is cheap to make.
#[derive(Clone, Copy, Debug)]
pub struct Job<'a, 'l> {
    pub(crate) text: Text<'a>,
    pub(crate) candidates: CandidateRows<'l>,
    pub(crate) matrix: Matrix<'l>,
    pub(crate) mode: Mode,
}

impl<'a, 'l> Job<'a, 'l> {
    /// A job on a string. The candidates are `&Candidates`, or [`CandidateRows`] lent by the
    /// caller.
    pub fn new(
        text: &'a str,
        candidates: impl Into<CandidateRows<'l>>,
        matrix: Matrix<'l>,
        mode: Mode,
    ) -> Job<'a, 'l> {
        Job {
            text: Text::Str(text),
            candidates: candidates.into(),
            matrix,
            mode,
        }
    }

    /// A job on bytes that come from a stranger: if they are not UTF-8, it is refused.
    pub fn from_bytes(
        text: &'a [u8],
        candidates: impl Into<CandidateRows<'l>>,
        matrix: Matrix<'l>,
        mode: Mode,
    ) -> Job<'a, 'l> {
        Job {
            text: Text::Bytes(text),
            candidates: candidates.into(),
            matrix,
            mode,
        }
    }
}

/// A text, and whether Rust knows already that it is UTF-8.
#[derive(Clone, Copy, Debug)]
pub(crate) enum Text<'a> {
    Str(&'a str),
    Bytes(&'a [u8]),
}

impl<'a> Text<'a> {
    pub(crate) fn bytes(self) -> &'a [u8] {
        match self {
            Text::Str(text) => text.as_bytes(),
            Text::Bytes(text) => text,
        }
    }

    /// A part of a text that the library has accepted, between two of the offsets it has given.
    /// Accepted text is UTF-8, and each of these offsets is a character's start or the text's end:
    /// both are proved, so neither line below can panic.
    pub(crate) fn part(self, range: Range<usize>) -> &'a str {
        match self {
            Text::Str(text) => &text[range],
            Text::Bytes(text) => std::str::from_utf8(&text[range]).expect("accepted text is UTF-8"),
        }
    }
}
