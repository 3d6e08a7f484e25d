//! The walk back alone, beside plain Rust.

use crate::times::{print, times, Way};
use harness::library;
use harness::model::{MOST_CANDIDATES, MOST_CHARACTERS};
use harness::random::Random;
use harness::walks::{self, Walk};

const WAYS: [Way<Walk, [u16]>; 3] = [library, two, turned];

/// The library's call.
fn library(walk: &Walk, word: &mut [u16]) -> u32 {
    library::walk_back::walk_back(&walk.start, &walk.end, &walk.left, walk.n, word).count
}

/// The tests that stand before the walk.
fn passes(walk: &Walk, word: &[u16]) -> bool {
    let c = walk.start.len();
    walk.n as usize <= MOST_CHARACTERS
        && walk.end.len() == c
        && c <= MOST_CANDIDATES
        && walk.left.len() >= c + 2
        && word.len() >= walk.n as usize
}

/// Follows the links and meets each candidate; whether all of them were right.
fn follow(walk: &Walk, mut meet: impl FnMut(u16)) -> bool {
    let c = walk.start.len();
    let (mut entry, mut position) = (c + 1, walk.n as u16);
    loop {
        let link = walk.left[entry];
        entry = link.into();
        if link == 0 || entry > c {
            return link == 0 && position == 0;
        }
        let (start, end) = (walk.start[entry - 1], walk.end[entry - 1]);
        if start >= end || end != position {
            return false;
        }
        meet(link - 1);
        position = start;
    }
}

/// Plain Rust that walks twice: counts, and then writes from the last word on.
fn two(walk: &Walk, word: &mut [u16]) -> u32 {
    let mut count = 0;
    if !passes(walk, word) || !follow(walk, |_| count += 1) {
        return 0;
    }
    let mut entry = walk.start.len() + 1;
    for place in word[..count].iter_mut().rev() {
        let link = walk.left[entry];
        *place = link - 1;
        entry = link.into();
    }
    count as u32
}

/// Plain Rust that walks once, into a list of its own that it then turns round.
fn turned(walk: &Walk, word: &mut [u16]) -> u32 {
    let mut backwards = Vec::new();
    if !passes(walk, word) || !follow(walk, |candidate| backwards.push(candidate)) {
        return 0;
    }
    for (place, &candidate) in word.iter_mut().zip(backwards.iter().rev()) {
        *place = candidate;
    }
    backwards.len() as u32
}

fn head() {
    println!("\nWalk back: nanoseconds for each word, and the library's ratio to the others.");
    println!("two: plain Rust in two walks; turned: one walk into a Vec, turned round.\n");
    println!(
        "characters walks  cands  words  figure  library      two   turned   lib/two lib/turned"
    );
}

fn line(n: usize, walks: &[Walk]) {
    let mut words = 0;
    for walk in walks {
        let rows = WAYS.map(|way| {
            let mut word = vec![0; n];
            let count = way(walk, &mut word);
            (count, word)
        });
        assert!(rows[0].0 > 0 && rows[0] == rows[1] && rows[1] == rows[2]);
        words += rows[0].0 as usize;
    }
    let (many, c) = (walks.len(), walks[0].start.len());
    let label = format!("{n:10} {many:>5} {c:>6} {:>6}", words / many);
    print(&label, times(walks, words, WAYS, &mut vec![0; n][..]));
}

pub fn bench(random: &mut Random) {
    head();
    for n in [512, MOST_CHARACTERS] {
        let walks: Vec<Walk> = (0..16).map(|_| walks::lattice(random, n)).collect();
        line(n, &walks);
    }
}
