//! The classes of jobs that are compared. All pass document 01's tests, and in Decompose the other
//! threshold is not below the kanji threshold: there the Rust charges otherwise.

use super::tiny::Tiny;
use crate::jobs::{self, Job, Make, MAKES};
use crate::model::{MOST_CANDIDATES, MOST_CHARACTERS};
use crate::random::Random;

#[derive(Clone, Copy, Debug, PartialEq, Eq)]
pub enum Class {
    /// One of every job of some few characters and candidates.
    Tiny,
    /// Anything that has a path.
    Any,
    /// Many equal costs.
    Ties,
    /// From 1 to 40 candidates at each position.
    Dense,
    /// Unreachable parts, and often no path.
    Sparse,
    NoPath,
    /// Costs, extras, joints, prices and thresholds at the ends of their ranges.
    Extremes,
    /// Kanji, kana, Latin letters and emoji by turns.
    Scripts,
    /// Decompose, with thresholds beside the lengths of words.
    Lengths,
    /// 4,096 characters and 16,384 candidates, of any of the other makes.
    Largest,
}

pub const CLASSES: [Class; 10] = [
    Class::Tiny,
    Class::Any,
    Class::Ties,
    Class::Dense,
    Class::Sparse,
    Class::NoPath,
    Class::Extremes,
    Class::Scripts,
    Class::Lengths,
    Class::Largest,
];

impl Class {
    /// How many jobs of each class make a round, so that the largest take no more time than others.
    pub fn in_a_round(self) -> u64 {
        match self {
            Class::Largest => 1,
            Class::Dense => 200,
            _ => 2_000,
        }
    }
}

/// Makes jobs from seeds.
#[derive(Default)]
pub struct Maker {
    tiny: Tiny,
}

impl Maker {
    /// The job of this class and seed.
    pub fn job(&self, class: Class, seed: u64) -> Job {
        let mut random = Random::new(seed);
        let (n, c) = match class {
            Class::Largest => (MOST_CHARACTERS, MOST_CANDIDATES),
            _ => size(&mut random),
        };
        self.of_size(class, &mut random, n, c)
    }

    /// A job of about this size, if the class leaves the size open.
    pub fn of_size(&self, class: Class, random: &mut Random, n: usize, c: usize) -> Job {
        let make = match class {
            Class::Tiny => return self.tiny.job(random.below(self.tiny.jobs())),
            Class::Dense => return in_domain(jobs::dense(random, 1 + n.min(8))),
            Class::Any => Make::Any,
            Class::Ties => Make::Ties,
            Class::Sparse => Make::Sparse,
            Class::NoPath => Make::NoPath,
            Class::Extremes => Make::Extremes,
            Class::Scripts => Make::Scripts,
            Class::Lengths => Make::Lengths,
            Class::Largest => random.one_of(&MAKES),
        };
        in_domain(jobs::job(random, make, n, c))
    }
}

/// Mostly small; one in 128 of the size of an address, one in 2,048 of a note's.
fn size(random: &mut Random) -> (usize, usize) {
    let n = match random.below(2_048) {
        0 => random.below(400),
        1..=16 => random.below(40),
        _ => random.below(9),
    };
    match n {
        0..=8 => (n, random.below(13)),
        _ => (n, random.below(6 * n + 1)),
    }
}

/// The job with the lower threshold for kanji.
fn in_domain(mut job: Job) -> Job {
    let penalty = &mut job.penalty;
    if penalty.other_threshold < penalty.kanji_threshold {
        std::mem::swap(&mut penalty.other_threshold, &mut penalty.kanji_threshold);
    }
    job
}
