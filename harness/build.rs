//! Links the static library that `make lib` leaves beside this folder.

use std::path::PathBuf;
use std::process::exit;

fn main() {
    let here = std::env::var("CARGO_MANIFEST_DIR").expect("cargo names the crate's folder");
    let folder = PathBuf::from(here).join("../target/staticlib");
    let archive = folder.join("libjumelavorp.a");
    println!("cargo:rerun-if-changed={}", archive.display());
    if !archive.is_file() {
        eprintln!("There is no {}: run make lib first.", archive.display());
        exit(1);
    }
    println!("cargo:rustc-link-search=native={}", folder.display());
    println!("cargo:rustc-link-lib=static=jumelavorp");
}
