//! The library held against the Rust itself, where its source is at hand. Every test counts its cases.

mod broken;
mod runs;
mod thresholds;

use harness::differential::compare::Segmenter;
use harness::differential::Differential;
use std::io::Write;
use std::sync::Once;

/// Nothing where the source is missing.
fn against(segmenter: Segmenter, seed: u64) -> Option<Differential> {
    let differential = Differential::new(segmenter, seed);
    if differential.is_none() {
        static SAID: Once = Once::new();
        SAID.call_once(say_missing);
    }
    differential
}

/// Past the captured output of a test.
fn say_missing() {
    let said = "nothing is compared: the Rust's source is not there (LINDERA_SRC names its folder)";
    writeln!(std::io::stderr(), "{said}").expect("the message is written");
}
