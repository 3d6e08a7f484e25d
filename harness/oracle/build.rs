//! Finds the Rust's source: in the folder that LINDERA_SRC names, or where the documents usually lie.

use std::path::{Path, PathBuf};

/// The files that the oracle includes.
const FILES: [&str; 6] = [
    "viterbi.rs",
    "mode.rs",
    "error.rs",
    "util.rs",
    "nbest.rs",
    "dictionary/connection_cost_matrix.rs",
];

fn main() {
    println!("cargo:rustc-check-cfg=cfg(source)");
    // The source asks for these two; neither is ever set.
    println!("cargo:rustc-check-cfg=cfg(feature, values(\"mmap\", \"ctxfreq\"))");
    println!("cargo:rerun-if-env-changed=LINDERA_SRC");
    let source = folder().join("src");
    for file in FILES {
        println!("cargo:rerun-if-changed={}", source.join(file).display());
    }
    match source.canonicalize() {
        Ok(source) if FILES.iter().all(|file| source.join(file).is_file()) => found(&source),
        _ => missing(&source),
    }
}

fn folder() -> PathBuf {
    match std::env::var_os("LINDERA_SRC") {
        Some(folder) => PathBuf::from(folder),
        None => {
            let here = std::env::var_os("CARGO_MANIFEST_DIR").expect("cargo names the folder");
            PathBuf::from(here).join("../../../shared/docs/src")
        }
    }
}

fn found(source: &Path) {
    println!("cargo:rustc-cfg=source");
    println!("cargo:rustc-env=LINDERA_SOURCE={}", source.display());
}

fn missing(source: &Path) {
    println!(
        "cargo:warning=The Rust's source (lindera-dictionary 6.2.0) is not in {}: nothing is held \
         against it. The environment variable LINDERA_SRC names the folder that has its src.",
        source.display()
    );
}
