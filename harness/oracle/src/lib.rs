//! The Rust itself, to hold the library against: document 000 and its neighbours, unmodified.
//!
//! The source is no part of this repository. It is included from the folder that LINDERA_SRC names;
//! where that is missing, `PRESENT` is false and neither driver can be made. Only jobs that pass
//! document 01's tests may be handed in: the Rust has no answers for the others.

/// Whether the Rust's source was there when this was compiled.
pub const PRESENT: bool = cfg!(source);

/// The number that means "none".
pub const NONE: u16 = 65_535;

/// A job of document 01 that passes its tests, but for the matrix.
#[derive(Clone, Copy)]
pub struct Job<'a> {
    pub text: &'a str,
    pub start: &'a [u16],
    pub end: &'a [u16],
    pub kind: &'a [u8],
    pub extra: &'a [i16],
    pub entry: &'a [[u8; 10]],
    pub mode: Mode,
}

#[derive(Clone, Copy, Debug, PartialEq, Eq)]
pub enum Mode {
    Normal,
    Decompose {
        kanji_threshold: u32,
        kanji_price: u32,
        other_threshold: u32,
        other_price: u32,
    },
}

/// Number 0 or 12; in 12 count and cost are 0.
#[derive(Clone, Copy, Debug, PartialEq, Eq)]
pub struct Answer {
    pub number: u32,
    pub count: u32,
    pub cost: i32,
}

/// What a job writes, just the places that it writes, in document 01's form.
#[derive(Clone, Debug, Default, PartialEq, Eq)]
pub struct Rows {
    pub offset: Vec<u32>,
    pub run: Vec<u16>,
    pub first: Vec<u16>,
    pub last: Vec<u16>,
    pub left: Vec<u16>,
    pub cost: Vec<i32>,
    pub next: Vec<u16>,
    pub word_offset: Vec<u32>,
    pub word_id: Vec<u32>,
    pub word_kind: Vec<u8>,
}

#[cfg(not(source))]
mod absent;
#[cfg(not(source))]
pub use absent::{Direct, Matrix, Whole};

#[cfg(source)]
pub use dictionary::connection_cost_matrix::lent::Matrix;
#[cfg(source)]
pub use viterbi::{direct::Direct, whole::Whole};

#[cfg(source)]
type LinderaResult<T> = Result<T, error::LinderaError>;

#[cfg(source)]
mod space_penalty;

#[cfg(source)]
mod dictionary {
    pub mod character_definition;
    pub mod prefix_dictionary;
    pub mod unknown_dictionary;

    #[allow(dead_code, clippy::all)]
    pub mod connection_cost_matrix {
        include!(concat!(
            env!("LINDERA_SOURCE"),
            "/dictionary/connection_cost_matrix.rs"
        ));

        pub mod lent;
    }
}

#[cfg(source)]
#[allow(dead_code, clippy::all)]
mod error {
    include!(concat!(env!("LINDERA_SOURCE"), "/error.rs"));
}

#[cfg(source)]
#[allow(dead_code, clippy::all)]
mod mode {
    include!(concat!(env!("LINDERA_SOURCE"), "/mode.rs"));
}

#[cfg(source)]
#[allow(dead_code, clippy::all)]
mod nbest {
    include!(concat!(env!("LINDERA_SOURCE"), "/nbest.rs"));
}

#[cfg(source)]
#[allow(dead_code, unused_imports, clippy::all)]
mod util {
    include!(concat!(env!("LINDERA_SOURCE"), "/util.rs"));
}

#[cfg(source)]
#[allow(dead_code, clippy::all)]
mod viterbi {
    include!(concat!(env!("LINDERA_SOURCE"), "/viterbi.rs"));

    #[cfg(test)]
    #[warn(dead_code, clippy::all)]
    mod differences;
    #[warn(dead_code, clippy::all)]
    pub mod direct;
    #[warn(dead_code, clippy::all)]
    mod slots;
    #[warn(dead_code, clippy::all)]
    pub mod whole;
}
