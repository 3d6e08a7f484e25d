//! The walk back alone.

use crate::{ffi, Refusal};

/// Follows the links of a finished lattice back from its end, and gives the numbers of the
/// candidates that are its words, in the order of the text. They are written to the front of
/// `word`, which is asked to have `n` places, the number of characters.
///
/// It takes any rows: a link that leads nowhere is refused with [`Refusal::BrokenLink`].
///
/// ```
/// use jumelavorp::{walk_back, NONE};
///
/// // The candidates of 東京都 in the crate's example, and the links of its lattice.
/// let (start, end) = ([0, 0, 1, 1, 2], [1, 2, 2, 3, 3]);
/// let left = [NONE, 0, 0, 1, 1, 2, 5];
/// let mut word = [0; 3];
/// assert_eq!(walk_back(&start, &end, &left, 3, &mut word)?, [1, 4]);
/// # Ok::<(), jumelavorp::Refusal>(())
/// ```
pub fn walk_back<'w>(
    start: &[u16],
    end: &[u16],
    left: &[u16],
    n: u32,
    word: &'w mut [u16],
) -> Result<&'w [u16], Refusal> {
    let (count, _) = ffi::walk_back(start, end, left, n, word).done()?;
    Ok(&word[..count])
}
