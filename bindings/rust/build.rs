//! Tells the compiler where the static library is. Without it the crate can still be checked and
//! documented, so its absence is a warning here and an error where the crate is linked.

use std::env;
use std::path::PathBuf;

const FOLDER: &str = "JUMELAVORP_LIB_DIR";

fn main() {
    let here = env::var_os("CARGO_MANIFEST_DIR").expect("cargo names the crate's folder");
    let folder = env::var_os(FOLDER).unwrap_or("../../target/staticlib".into());
    let folder = PathBuf::from(here).join(folder);
    let archive = folder.join("libjumelavorp.a");
    println!("cargo:rerun-if-env-changed={FOLDER}");
    println!("cargo:rerun-if-changed=build.rs");
    println!("cargo:rerun-if-changed={}", archive.display());
    if !archive.is_file() {
        println!(
            "cargo:warning=There is no {}: to link this crate, run make lib first, or name the \
             folder of libjumelavorp.a in {FOLDER} (a whole path).",
            archive.display()
        );
    }
    println!("cargo:rustc-link-search=native={}", folder.display());
    println!("cargo:rustc-link-lib=static=jumelavorp");
}
