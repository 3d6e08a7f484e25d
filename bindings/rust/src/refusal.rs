//! Why a call was refused.

use std::error::Error;
use std::fmt::{self, Display, Formatter};

use crate::{MOST_BYTES, MOST_CANDIDATES, MOST_CHARACTERS};

/// Why a call was refused: the paper's answers 1 to 13. Shown with `{}`, it says so in plain words.
///
/// The library may come to have further answers, so a `match` needs an arm for the rest.
///
/// ```
/// use jumelavorp::{characters, Refusal, Rows};
///
/// let refusal = characters(b"A\xC0\x80", &mut Rows::new()).unwrap_err();
/// assert_eq!(refusal, Refusal::NotUtf8 { offset: 1 });
/// assert_eq!((refusal.number(), refusal.place()), (1, Some(1)));
/// assert_eq!(refusal.to_string(), "the text is not UTF-8 from byte 1 on");
/// ```
#[derive(Clone, Copy, Debug, PartialEq, Eq, Hash)]
#[non_exhaustive]
pub enum Refusal {
    /// 1: the text is not UTF-8.
    NotUtf8 {
        /// The byte offset up to which it can be read.
        offset: usize,
    },
    /// 2: the text has too many bytes or too many characters.
    TextTooLong,
    /// 3: the candidate rows do not all speak of the same number of candidates.
    UnevenRows,
    /// 4: there are too many candidates.
    TooManyCandidates,
    /// 5: a size of the matrix is 0 or too large, or it does not have height × width values.
    MatrixMisfit,
    /// 6: a price or a threshold is too large.
    PenaltyTooLarge,
    /// 7: the rows to be written have too little room for this text and these candidates.
    RowsTooSmall,
    /// 8: a candidate's kind is none of the three. A [`Kind`](crate::Kind) never is that.
    NoSuchKind {
        /// The candidate's number.
        candidate: usize,
    },
    /// 9: a candidate starts before the one ahead of it in the list.
    OutOfOrder {
        /// The candidate's number.
        candidate: usize,
    },
    /// 10: a candidate has no characters, or ends beyond the text.
    BadSpan {
        /// The candidate's number.
        candidate: usize,
    },
    /// 11: a candidate's left or right id lies outside the matrix.
    IdOutsideMatrix {
        /// The candidate's number.
        candidate: usize,
    },
    /// 12: no words of the list cover the text from its start to its end.
    NoPath,
    /// 13: a link that the walk back follows is broken.
    BrokenLink,
}

impl Refusal {
    /// The refusal that an answer other than 0 tells.
    pub(crate) fn of(number: u32, place: usize) -> Refusal {
        match number {
            1 => Refusal::NotUtf8 { offset: place },
            2 => Refusal::TextTooLong,
            3 => Refusal::UnevenRows,
            4 => Refusal::TooManyCandidates,
            5 => Refusal::MatrixMisfit,
            6 => Refusal::PenaltyTooLarge,
            7 => Refusal::RowsTooSmall,
            8 => Refusal::NoSuchKind { candidate: place },
            9 => Refusal::OutOfOrder { candidate: place },
            10 => Refusal::BadSpan { candidate: place },
            11 => Refusal::IdOutsideMatrix { candidate: place },
            12 => Refusal::NoPath,
            13 => Refusal::BrokenLink,
            // The library of this source is proved to give no other number.
            _ => unreachable!(
                "answer {number}: this crate and libjumelavorp.a do not belong together"
            ),
        }
    }

    /// The paper's answer number, from 1 on.
    pub fn number(self) -> u32 {
        match self {
            Refusal::NotUtf8 { .. } => 1,
            Refusal::TextTooLong => 2,
            Refusal::UnevenRows => 3,
            Refusal::TooManyCandidates => 4,
            Refusal::MatrixMisfit => 5,
            Refusal::PenaltyTooLarge => 6,
            Refusal::RowsTooSmall => 7,
            Refusal::NoSuchKind { .. } => 8,
            Refusal::OutOfOrder { .. } => 9,
            Refusal::BadSpan { .. } => 10,
            Refusal::IdOutsideMatrix { .. } => 11,
            Refusal::NoPath => 12,
            Refusal::BrokenLink => 13,
        }
    }

    /// Where the fault lies, if the refusal has a place: a byte offset for 1, a candidate's number
    /// for 8 to 11.
    pub fn place(self) -> Option<usize> {
        match self {
            Refusal::NotUtf8 { offset } => Some(offset),
            _ => self.candidate(),
        }
    }

    fn candidate(self) -> Option<usize> {
        match self {
            Refusal::NoSuchKind { candidate }
            | Refusal::OutOfOrder { candidate }
            | Refusal::BadSpan { candidate }
            | Refusal::IdOutsideMatrix { candidate } => Some(candidate),
            _ => None,
        }
    }
}

impl Display for Refusal {
    fn fmt(&self, f: &mut Formatter<'_>) -> fmt::Result {
        if let Some(candidate) = self.candidate() {
            write!(f, "candidate {candidate} (counted from 0) ")?;
        }
        match self {
            Refusal::NotUtf8 { offset } => write!(f, "the text is not UTF-8 from byte {offset} on"),
            Refusal::TextTooLong => write!(
                f,
                "the text is too long: it may have at most {MOST_BYTES} bytes and \
                 {MOST_CHARACTERS} characters"
            ),
            Refusal::UnevenRows => write!(f, "the candidate rows are not of the same length"),
            Refusal::TooManyCandidates => write!(
                f,
                "there are too many candidates: there may be at most {MOST_CANDIDATES}"
            ),
            Refusal::MatrixMisfit => write!(
                f,
                "the matrix does not fit its sizes: height and width are 1 to 65535, and there \
                 are height times width values"
            ),
            Refusal::PenaltyTooLarge => write!(
                f,
                "a penalty is too large: a price is at most 32767 and a threshold at most 65535"
            ),
            Refusal::RowsTooSmall => write!(
                f,
                "the rows have too little room for this text and its candidates"
            ),
            Refusal::NoSuchKind { .. } => write!(
                f,
                "has a kind other than 0 (system), 1 (user) and 2 (unknown)"
            ),
            Refusal::OutOfOrder { .. } => write!(f, "starts before the one ahead of it"),
            Refusal::BadSpan { .. } => {
                write!(f, "does not end after its start, or ends beyond the text")
            }
            Refusal::IdOutsideMatrix { .. } => {
                write!(f, "has a left or right id outside the matrix")
            }
            Refusal::NoPath => write!(f, "no words of the list cover the whole text"),
            Refusal::BrokenLink => write!(f, "a link from a word to the one before it is broken"),
        }
    }
}

impl Error for Refusal {}
