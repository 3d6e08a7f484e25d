//! Holds the C library against plain models of document 01, and the whole job against the Rust itself.
//!
//! `library`, `model` and `check` have one module for each public operation.

pub mod addresses;
pub mod chains;
pub mod check;
pub mod differential;
pub mod jobs;
pub mod library;
pub mod model;
pub mod random;
pub mod replay;
pub mod texts;
pub mod walks;
