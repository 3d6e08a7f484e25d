//! The character table alone, beside plain Rust.

use crate::times::{print, times, Way};
use harness::model::characters::is_kanji;
use harness::model::{MOST_BYTES, MOST_CHARACTERS};
use harness::random::Random;
use harness::{addresses, library};
use std::hint::black_box;

type Rows = (Vec<u32>, Vec<u16>);
const WAYS: [Way<[u8], Rows>; 3] = [library, chars, fill];

fn rows() -> Rows {
    (vec![0; MOST_CHARACTERS + 1], vec![0; MOST_CHARACTERS + 1])
}

/// The library's call.
fn library(text: &[u8], (offset, run): &mut Rows) -> u32 {
    library::characters::characters(text, offset, run).count
}

/// The least a Rust caller does: one walk that looks at every character and writes nothing.
fn chars(text: &[u8], _: &mut Rows) -> u32 {
    let Ok(string) = std::str::from_utf8(text) else {
        return 0;
    };
    let (mut count, mut folded) = (0, 0_u32);
    for character in string.chars() {
        count += 1;
        folded = folded.wrapping_add(u32::from(character));
    }
    black_box(folded);
    count
}

/// The same table in plain Rust, into rows that are already there.
fn fill(text: &[u8], (offset, run): &mut Rows) -> u32 {
    if text.len() > MOST_BYTES {
        return 0;
    }
    let Ok(string) = std::str::from_utf8(text) else {
        return 0;
    };
    let n = string.chars().count();
    if n > MOST_CHARACTERS || offset.len() <= n || run.len() <= n {
        return 0;
    }
    for (i, (start, character)) in string.char_indices().enumerate() {
        offset[i] = start as u32;
        run[i] = u16::from(is_kanji(character));
    }
    offset[n] = text.len() as u32;
    run[n] = 0;
    let mut length = 0;
    for place in run[..n].iter_mut().rev() {
        length = if *place == 0 { 0 } else { length + 1 };
        *place = length;
    }
    n as u32
}

/// The library and the fill must do the same work before their times mean anything.
fn agree(text: &str) {
    let (mut ours, mut theirs) = (rows(), rows());
    let count = library(text.as_bytes(), &mut ours);
    assert_eq!(count as usize, text.chars().count());
    assert_eq!(count, fill(text.as_bytes(), &mut theirs));
    assert!(ours == theirs);
}

fn head() {
    println!("Characters: nanoseconds for each byte, and the library's ratio to the other two.");
    println!("chars: from_utf8 and a chars() walk; fill: the same table in plain Rust.\n");
    println!(
        "text      texts  bytes  chars  figure  library    chars     fill lib/chars  lib/fill"
    );
}

fn line(name: &str, texts: &[String]) {
    texts.iter().for_each(|text| agree(text));
    let characters: usize = texts.iter().map(|text| text.chars().count()).sum();
    let bytes: usize = texts.iter().map(String::len).sum();
    let many = texts.len();
    let (bytes_each, characters_each) = (bytes / many, characters / many);
    let label = format!("{name:9} {many:>5} {bytes_each:>6} {characters_each:>6}");
    let jobs: Vec<&[u8]> = texts.iter().map(String::as_bytes).collect();
    print(&label, times(&jobs, bytes, WAYS, &mut rows()));
}

pub fn bench(random: &mut Random) {
    let mut long =
        |address| -> Vec<String> { (0..16).map(|_| addresses::long(random, address)).collect() };
    head();
    line("Latin", &long(addresses::latin));
    line("Japanese", &long(addresses::japanese));
    line("mixed", &long(addresses::mixed));
    // As many short texts as make a pass of the same size.
    let short: Vec<String> = (0..4_096).map(|_| addresses::short(random)).collect();
    line("address", &short);
}
