//! What is recorded: document 01's examples, and jobs of all classes but the largest from one seed.

use super::Record;
use crate::differential::classes::{Class, Maker, CLASSES};
use crate::differential::rust::Rust;
use crate::jobs::{self, Candidate, Job, Make};
use crate::library::segment::Penalty;
use crate::random::Random;
use crate::texts::{self, Family};

/// The largest sizes in the list.
pub const MOST_BYTES: usize = 512;
pub const MOST_CHARACTERS: usize = 128;
pub const MOST_CANDIDATES: usize = 512;
pub const MOST_JOINTS: usize = 1_024;

/// The whole list with the Rust's answers, or nothing where its source is missing.
pub fn records() -> Option<Vec<Record>> {
    let mut rust = Rust::new()?;
    let answered = |job: Job| {
        let (answer, rows) = rust.answer(&job);
        let rows = rows.clone();
        Record { job, answer, rows }
    };
    Some(jobs().into_iter().map(answered).collect())
}

fn jobs() -> Vec<Job> {
    let (maker, mut random) = (Maker::default(), Random::new(6));
    let mut all = examples();
    for class in CLASSES.into_iter().filter(|&class| class != Class::Largest) {
        let small = if class == Class::Dense { 12 } else { 40 };
        for _ in 0..small {
            let (n, c) = match class {
                Class::Dense => (random.below(3), 0),
                _ => (random.below(6), random.below(8)),
            };
            all.push(maker.of_size(class, &mut random, n, c));
        }
        if class != Class::Dense && class != Class::Tiny {
            for _ in 0..4 {
                let n = 8 + random.below(24);
                all.push(maker.of_size(class, &mut random, n, 2 * n));
            }
        }
    }
    all.extend((0..40).map(|_| tied(&maker, &mut random)));
    all.push(at_the_limits(&mut random));
    all.iter_mut().for_each(without_penalty);
    all
}

/// Many words over few characters and one joint, so that mostly more than one path costs the least.
fn tied(maker: &Maker, random: &mut Random) -> Job {
    let (n, c) = (1 + random.below(3), 5 + random.below(5));
    let job = maker.of_size(Class::Ties, random, n, c);
    let mut job = job.matrix(1, 1, &[0]);
    for k in 0..job.candidates() {
        job.set_left_id(k, 0);
        job.set_right_id(k, 0);
    }
    job
}

/// The four numbers of a job in Normal are 0.
fn without_penalty(job: &mut Job) {
    if job.mode == 0 {
        job.penalty = Penalty::default();
    }
}

/// Those of document 01's examples that have the answer 0 or 12.
fn examples() -> Vec<Job> {
    let word = |left_id, right_id| {
        let mut job = Job::new(b"a").matrix(2, 2, &[0, 5, 9, 0]);
        job.push(Candidate {
            end: 1,
            left_id,
            right_id,
            ..Candidate::default()
        });
        job
    };
    vec![
        Job::new(&[]).matrix(1, 1, &[7]),
        Job::example_b(),
        Job::example_b().decompose([1, 500, 7, 0]),
        Job::of(b"a", &[(0, 1, 0), (0, 1, 0)]),
        Job::of(b"ab", &[(0, 1, 0)]),
        Job::of(b"ab", &[(0, 2, 5), (1, 2, -32_768)]),
        word(1, 0),
        word(0, 1),
    ]
}

/// The largest text, list and matrix at once.
fn at_the_limits(random: &mut Random) -> Job {
    let mut job = jobs::job(random, Make::Any, MOST_CHARACTERS, MOST_CANDIDATES);
    job.text = texts::of_characters(random, Family::Four, MOST_CHARACTERS).into();
    let joints: Vec<i16> = (0..MOST_JOINTS).map(|_| random.bits() as i16).collect();
    job = job.matrix(32, 32, &joints);
    for k in 0..MOST_CANDIDATES {
        job.set_left_id(k, random.below(32) as u16);
        job.set_right_id(k, random.below(32) as u16);
    }
    job.decompose([1, 300, 2, 100])
}
