//! Document 01 in ordinary Rust, written to be obviously right and not to be fast.

pub mod characters;
pub mod segment;
pub mod walk_back;

/// The longest text, in bytes.
pub const MOST_BYTES: usize = 16_384;

/// The longest text, in characters.
pub const MOST_CHARACTERS: usize = 4_096;

/// The most candidates.
pub const MOST_CANDIDATES: usize = 16_384;

/// The number that means "none".
pub const NONE: u16 = 65_535;
