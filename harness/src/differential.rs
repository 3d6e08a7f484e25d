//! Holds the library against the Rust itself: jobs of many classes, each made from a seed of its own.

pub mod classes;
pub mod compare;
pub mod rust;
pub mod shrink;
pub mod tiny;

use crate::jobs::Job;
use crate::random::Random;
use classes::{Class, Maker, CLASSES};
use compare::{Compare, Segmenter};
use rust::Rust;
use std::fmt;

/// Jobs of every class, the Rust's answers to them, and counts.
pub struct Differential {
    maker: Maker,
    rust: Rust,
    compare: Compare,
    random: Random,
    /// By answer number.
    pub seen: [u64; 13],
    pub tallies: [Tally; CLASSES.len()],
}

#[derive(Clone, Copy, Debug, Default, PartialEq, Eq)]
pub struct Tally {
    pub jobs: u64,
    pub mismatches: u64,
}

impl Tally {
    pub fn add(&mut self, other: Tally) {
        self.jobs += other.jobs;
        self.mismatches += other.mismatches;
    }
}

/// A job on which the two differ. The maker makes it again from its class and seed.
pub struct Mismatch {
    pub class: Class,
    pub seed: u64,
    pub difference: String,
    pub smallest: Job,
}

impl Differential {
    /// Nothing where the Rust's source is missing.
    pub fn new(segmenter: Segmenter, seed: u64) -> Option<Differential> {
        Some(Differential {
            maker: Maker::default(),
            rust: Rust::new()?,
            compare: Compare::new(segmenter),
            random: Random::new(seed),
            seen: [0; 13],
            tallies: [Tally::default(); CLASSES.len()],
        })
    }

    /// So many jobs of a class, all of them counted. Hands back the class's first mismatch, shrunk.
    pub fn jobs(&mut self, class: Class, jobs: u64) -> Option<Mismatch> {
        let before = self.tallies[class as usize].mismatches;
        let mut first = None;
        for _ in 0..jobs {
            let seed = self.random.bits();
            let job = self.maker.job(class, seed);
            if let Some(difference) = self.counted(class, &job, seed) {
                first.get_or_insert((seed, job, difference));
            }
        }
        let (seed, job, difference) = first.filter(|_| before == 0)?;
        let smallest = shrink::smallest(job, |job| self.difference(job, seed).is_some());
        Some(Mismatch {
            class,
            seed,
            difference,
            smallest,
        })
    }

    /// One job of a class, counted.
    pub fn counted(&mut self, class: Class, job: &Job, salt: u64) -> Option<String> {
        let difference = self.difference(job, salt);
        let tally = &mut self.tallies[class as usize];
        tally.jobs += 1;
        tally.mismatches += u64::from(difference.is_some());
        difference
    }

    /// The first difference between the library and the Rust on a job that passes the tests.
    pub fn difference(&mut self, job: &Job, salt: u64) -> Option<String> {
        let (answer, rows) = self.rust.answer(job);
        self.seen[answer.number as usize] += 1;
        self.compare.difference(job, answer, rows, salt)
    }

    /// How many jobs the Rust answered, and how many of them by both drivers.
    pub fn answered(&self) -> [u64; 2] {
        self.rust.jobs()
    }
}

impl fmt::Display for Mismatch {
    fn fmt(&self, to: &mut fmt::Formatter) -> fmt::Result {
        let (class, seed) = (self.class, self.seed);
        writeln!(to, "{class:?} job of seed {seed}: {}", self.difference)?;
        write!(to, "smallest:\n{}", shrink::pasted(&self.smallest))
    }
}
