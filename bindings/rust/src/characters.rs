//! The character table alone.

use std::ops::Range;

use crate::{ffi, Refusal, Rows};

/// Finds the characters of a text: what a lookup in a dictionary starts from.
///
/// ```
/// use jumelavorp::{characters, Rows};
///
/// let mut rows = Rows::new();
/// let found = characters("東京へ", &mut rows)?;
/// assert_eq!(found.offset, [0, 3, 6, 9]);
/// assert_eq!(found.run, [2, 1, 0, 0]);
/// assert_eq!(found.get(1).map(|one| one.range), Some(3..6));
/// # Ok::<(), jumelavorp::Refusal>(())
/// ```
pub fn characters(text: impl AsRef<[u8]>, rows: &mut Rows) -> Result<Characters<'_>, Refusal> {
    rows.filled = None;
    let answer = ffi::characters(text.as_ref(), &mut rows.offset, &mut rows.run);
    let (n, _) = answer.done()?;
    Ok(Characters {
        offset: &rows.offset[..n + 1],
        run: &rows.run[..n + 1],
    })
}

/// The characters of a text, as the library wrote them: n + 1 places for n characters.
#[derive(Clone, Copy, Debug)]
#[non_exhaustive]
pub struct Characters<'r> {
    /// The byte at which each character starts, and at place n the text's length.
    pub offset: &'r [u32],
    /// How many kanji follow from each character on; at place n it is 0.
    pub run: &'r [u16],
}

/// A character of a text.
#[derive(Clone, Debug, PartialEq, Eq, Hash)]
pub struct Character {
    /// The bytes of the text that it takes.
    pub range: Range<usize>,
    /// How many kanji follow without a break from here on, this one included; 0 if it is no kanji.
    pub run: u16,
}

impl Characters<'_> {
    /// How many there are.
    pub fn len(&self) -> usize {
        self.run.len() - 1
    }

    /// Whether the text is empty.
    pub fn is_empty(&self) -> bool {
        self.len() == 0
    }

    /// The character at a position, if the text goes so far.
    pub fn get(&self, position: usize) -> Option<Character> {
        let end = *self.offset.get(position.checked_add(1)?)?;
        Some(Character {
            range: self.offset[position] as usize..end as usize,
            run: self.run[position],
        })
    }

    /// The characters in the order of the text.
    pub fn iter(&self) -> impl DoubleEndedIterator<Item = Character> + ExactSizeIterator + '_ {
        self.offset
            .windows(2)
            .zip(self.run)
            .map(|(ends, &run)| Character {
                range: ends[0] as usize..ends[1] as usize,
                run,
            })
    }
}
