//! Jobs of every class, a fixed number of each.

use crate::against;
use harness::check::in_halves;
use harness::differential::classes::{Class, Maker, CLASSES};
use harness::differential::tiny::Tiny;
use harness::differential::{Differential, Tally};
use harness::jobs::{self, Job, Make};
use harness::library::segment::segment;
use harness::model::segment::MOST_IDS;
use harness::model::{MOST_CANDIDATES, MOST_CHARACTERS};
use harness::random::Random;

/// So many jobs of a class, half of them in a second thread. Says how often the answers 0 and 12 were
/// seen, and how many jobs both drivers of the Rust took; or nothing without the source.
fn compared(class: Class, seed: u64, jobs: u64) -> Option<[u64; 3]> {
    let halves = in_halves(|half| {
        let mut differential = against(segment, seed + half as u64)?;
        if let Some(mismatch) = differential.jobs(class, jobs / 2) {
            panic!("seed {seed}: {mismatch}");
        }
        Some(counts(&differential, class, jobs / 2))
    });
    let [first, second] = halves;
    let (first, second) = (first?, second?);
    Some([0, 1, 2].map(|i| first[i] + second[i]))
}

fn counts(differential: &Differential, class: Class, jobs: u64) -> [u64; 3] {
    let mismatches = 0;
    assert_eq!(
        differential.tallies[class as usize],
        Tally { jobs, mismatches }
    );
    let [all, twice] = differential.answered();
    assert_eq!(all, jobs);
    [differential.seen[0], differential.seen[12], twice]
}

/// The same with how many jobs of each answer and how many taken twice there have to be at least.
fn at_least(class: Class, seed: u64, many: u64, least: [u64; 3]) {
    if let Some(seen) = compared(class, seed, many) {
        assert_eq!(seen[0] + seen[1], many);
        assert!((0..3).all(|i| seen[i] >= least[i]), "{class:?}: {seen:?}");
    }
}

/// Holds jobs against the Rust; says how many there were, unless the source is missing.
fn hold(seed: u64, jobs: impl IntoIterator<Item = Job>) -> Option<u64> {
    let mut differential = against(segment, seed)?;
    for (i, job) in jobs.into_iter().enumerate() {
        let difference = differential.difference(&job, seed + i as u64);
        assert_eq!(difference, None, "{i}: {}", job.shown());
    }
    Some(differential.answered()[0])
}

#[test]
fn examples_b_and_c() {
    let b = Job::example_b();
    let c = Job::example_b().decompose([1, 500, 7, 0]);
    assert!(hold(150, [b, c]).is_none_or(|jobs| jobs == 2));
}

// Both ends of the cost range.
#[test]
fn ends_of_the_cost_range() {
    let highest = jobs::at_the_end('東', 32_767).decompose([0, 32_767, 0, 32_767]);
    let lowest = jobs::at_the_end('a', -32_768);
    assert!(hold(151, [highest, lowest]).is_none_or(|jobs| jobs == 2));
}

// Every character there is: offsets, and runs beside each of its neighbours.
#[test]
fn every_character() {
    let all: Vec<char> = ('\0'..=char::MAX).collect();
    let texts = all.chunks(MOST_CHARACTERS).map(String::from_iter);
    let modes = texts.flat_map(|text| {
        let job = Job::new(text.as_bytes());
        [job.clone(), job.decompose([0; 4])]
    });
    assert_eq!(all.len(), 1_112_064);
    assert!(hold(149, modes).is_none_or(|jobs| jobs == 2 * 272));
}

/// A job over as many rows or columns as there may be, with ids at their ends and between them.
fn wide(random: &mut Random, height: u32, width: u32) -> Job {
    let (n, c) = (1 + random.below(6), 1 + random.below(9));
    let values: Vec<i16> = (0..height * width).map(|_| random.bits() as i16).collect();
    let mut job = jobs::job(random, Make::Any, n, c).matrix(height, width, &values);
    job.mode = 0;
    for k in 0..job.candidates() {
        let [left_id, right_id] = [height, width].map(|size| {
            let any = random.below(size as usize) as u32;
            random.one_of(&[0, size - 1, any]) as u16
        });
        job.set_left_id(k, left_id);
        job.set_right_id(k, right_id);
    }
    job
}

#[test]
fn largest_matrices() {
    let mut random = Random::new(153);
    let sizes = [(MOST_IDS, 1), (MOST_IDS, 3), (1, MOST_IDS), (3, MOST_IDS)].repeat(25);
    let wide = sizes
        .into_iter()
        .map(|(height, width)| wide(&mut random, height, width));
    assert!(hold(153, wide).is_none_or(|jobs| jobs == 100));
}

// As many candidates as there may be over few characters: thousands end at one position.
#[test]
fn most_candidates_over_few_characters() {
    let mut random = Random::new(155);
    let few = (1..=4).map(|n| jobs::job(&mut random, Make::Ties, n, MOST_CANDIDATES));
    let few = few.map(|job| job.decompose([1, 1, 2, 1]));
    assert!(hold(155, few).is_none_or(|jobs| jobs == 4));
}

#[test]
fn every_tiny_job() {
    let tiny = Tiny::default();
    let halves = in_halves(|half| {
        let mut differential = against(segment, 152)?;
        for number in (half..tiny.jobs()).step_by(2) {
            let job = tiny.job(number);
            let difference = differential.difference(&job, number as u64);
            assert_eq!(difference, None, "{number}: {}", job.shown());
        }
        let [all, twice] = differential.answered();
        assert_eq!(all, twice);
        Some([differential.seen[0], differential.seen[12]])
    });
    // Counted by hand: over 0 to 3 characters, of 0 to 3 candidates.
    let lists = [1 + 1 + 1 + 1, 1 + 3 + 6, 1 + 7 + 25, 1 + 15 + 90];
    let jobs = lists[0] + 8 * lists[1] + 64 * lists[2] + 512 * lists[3];
    assert_eq!(tiny.jobs(), 16 * jobs);
    if let [Some(first), Some(second)] = halves {
        let [done, no_path] = [0, 1].map(|i| first[i] + second[i]);
        assert_eq!((done + no_path) as usize, tiny.jobs());
        assert!(done >= 400_000 && no_path >= 200_000, "{done} {no_path}");
    }
}

#[test]
fn any() {
    at_least(Class::Any, 154, 4_000_000, [3_200_000, 80_000, 3_600_000]);
}

#[test]
fn ties() {
    at_least(Class::Ties, 156, 4_000_000, [3_200_000, 80_000, 4_000_000]);
}

#[test]
fn dense() {
    at_least(Class::Dense, 158, 400_000, [400_000, 0, 200_000]);
}

#[test]
fn sparse() {
    at_least(Class::Sparse, 160, 4_000_000, [800_000, 800_000, 3_600_000]);
}

#[test]
fn no_path() {
    at_least(
        Class::NoPath,
        162,
        4_000_000,
        [200_000, 3_200_000, 3_600_000],
    );
}

#[test]
fn extremes() {
    at_least(
        Class::Extremes,
        164,
        4_000_000,
        [3_200_000, 80_000, 1_200_000],
    );
}

#[test]
fn scripts() {
    at_least(
        Class::Scripts,
        166,
        4_000_000,
        [3_200_000, 80_000, 3_600_000],
    );
}

#[test]
fn lengths() {
    at_least(
        Class::Lengths,
        168,
        4_000_000,
        [3_200_000, 80_000, 3_600_000],
    );
}

#[test]
fn largest() {
    at_least(Class::Largest, 170, 800, [400, 80, 80]);
}

// A seed makes one job, and another seed another one.
#[test]
fn one_job_for_a_seed() {
    let maker = Maker::default();
    for class in CLASSES {
        let jobs = [1, 2, 3, 4].map(|seed| maker.job(class, seed));
        assert_eq!(jobs, [1, 2, 3, 4].map(|seed| maker.job(class, seed)));
        assert!(jobs.iter().any(|job| *job != jobs[0]), "{class:?}");
        let penalties = jobs.iter().map(|job| job.penalty);
        assert!({ penalties }.all(|of| of.kanji_threshold <= of.other_threshold));
    }
}

#[test]
fn dense_jobs_are_dense() {
    let maker = Maker::default();
    let mut seen = [0; 41];
    for seed in 0..1_000 {
        let job = maker.job(Class::Dense, seed);
        for position in 0..job.characters() {
            let here = |&&start: &&u16| usize::from(start) == position;
            seen[job.start.iter().filter(here).count()] += 1;
        }
    }
    assert_eq!(seen[0], 0);
    assert!(seen[1..].iter().all(|&seen| seen >= 50), "{seen:?}");
}

// A class is found in its tally by its place in the list.
#[test]
fn classes_by_place() {
    for (place, class) in CLASSES.into_iter().enumerate() {
        assert_eq!(class as usize, place);
    }
    assert_eq!(CLASSES.len(), 10);
}
