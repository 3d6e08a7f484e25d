//! Cuts a Japanese address into words at the least cost: a safe face of the C library
//! `jumelavorp`, whose every function is proved to meet its contract, to be safe and to end.
//!
//! A [`Job`] is a text, the [`Candidates`] that a dictionary lists for it, a connection [`Matrix`]
//! and a [`Mode`]. [`segment`] answers with the words, or with a [`Refusal`] that says what was
//! wrong and where. The [`Rows`] that the library writes are made once and used for every call; no
//! call allocates, and none panics or hangs, whatever the text and the lists are.
//!
//! ```
//! use jumelavorp::{segment, Candidate, Candidates, Job, Kind, Matrix, Mode, Rows, WordEntry};
//!
//! // What a dictionary has for 東京都: 東, 東京, 京, 京都, 都. Positions count characters.
//! let listed = [(0, 1, 300), (0, 2, 100), (1, 2, 200), (1, 3, 150), (2, 3, 120)];
//! let mut candidates = Candidates::new();
//! for (id, (start, end, cost)) in (0..).zip(listed) {
//!     let entry = WordEntry { id, cost, left_id: 0, right_id: 0 };
//!     candidates.push(Candidate { start, end, kind: Kind::System, extra: 0, entry });
//! }
//! let matrix = Matrix { height: 1, width: 1, values: &[0] };
//! let mut rows = Rows::new();
//!
//! let job = Job::new("東京都", &candidates, matrix, Mode::Normal);
//! let segmented = segment(&job, &mut rows)?;
//! assert_eq!(segmented.cost(), 220);
//! let words: Vec<&str> = segmented.words().map(|word| word.text).collect();
//! assert_eq!(words, ["東京", "都"]);
//! # Ok::<(), jumelavorp::Refusal>(())
//! ```
//!
//! "The paper" in these pages is the project's document 01, which says what every answer means.
//! [`characters`] and [`walk_back`] are its other two operations: the first and the last part of
//! the whole job, alone.
#![deny(missing_docs, unsafe_code, unsafe_op_in_unsafe_fn)]

#[cfg(not(all(unix, target_arch = "x86_64", target_pointer_width = "64")))]
compile_error!("libjumelavorp.a is x86-64 code: this crate cannot be linked for another machine");

mod candidates;
mod characters;
#[allow(unsafe_code)]
mod ffi;
mod job;
mod refusal;
mod rows;
mod segmented;
mod walk;

pub use candidates::{Candidate, CandidateRows, Candidates, Kind, WordEntry};
pub use characters::{characters, Character, Characters};
pub use job::{Job, Matrix, Mode, Penalty};
pub use refusal::Refusal;
pub use rows::{Entry, Lattice, Rows};
pub use segmented::{segment, Segmented, Word, Words};
pub use walk::walk_back;

/// The most bytes that a text may have.
pub const MOST_BYTES: usize = 16_384;

/// The most characters that a text may have.
pub const MOST_CHARACTERS: usize = 4_096;

/// The most candidates that a job may have.
pub const MOST_CANDIDATES: usize = 16_384;

/// The number that means "none" in the rows of a lattice.
pub const NONE: u16 = 65_535;

/// The Rust in the project's README, run with the examples of this crate.
#[cfg(doctest)]
#[doc = include_str!("../../../README.md")]
struct Readme;
