//! The name only: an error of the source is never printed.

pub use no_derives::Error;
