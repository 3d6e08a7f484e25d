//! Writes the replay list anew, from the Rust's answers.

use harness::replay::{path, recorded::records, written};
use std::process::ExitCode;

fn main() -> ExitCode {
    let Some(records) = records() else {
        eprintln!("record: the Rust's source is not there. LINDERA_SRC names the folder that has its src.");
        return ExitCode::FAILURE;
    };
    let list = written(&records);
    std::fs::write(path(), &list).expect("the list can be written");
    println!("{} records, {} bytes", records.len(), list.len());
    ExitCode::SUCCESS
}
