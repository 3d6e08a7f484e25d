//! Random jobs of every make, from none to the largest, and both ends of the cost range.

use crate::{asked, gives};
use harness::check::in_halves;
use harness::check::segment::Check;
use harness::jobs::{self, Job, Make, MAKES};
use harness::model::segment::{GREATEST_COST, LEAST_COST};
use harness::model::{MOST_CANDIDATES, MOST_CHARACTERS};
use harness::random::Random;

/// One random job: it passes all tests, and has a path where its make says so.
fn good(check: &mut Check, job: &Job, make: Make) {
    let number = check.job(job).number;
    let (n, c) = (job.characters(), job.candidates());
    match make {
        _ if n == 0 => assert_eq!(number, 0),
        _ if c == 0 => assert_eq!(number, 12),
        Make::Sparse => assert!(number == 0 || number == 12),
        Make::NoPath => assert_eq!(number, 12),
        _ => assert_eq!(number, 0),
    }
}

/// The same job damaged in one, two and three places; in some cases a row is short as well.
fn damaged(check: &mut Check, random: &mut Random, job: &Job) {
    for places in 1..=3 {
        let mut job = job.clone();
        (0..places).for_each(|_| jobs::damage(random, &mut job));
        let mut lengths = asked(&job);
        let row = random.below(40);
        if row < lengths.len() {
            lengths[row] = lengths[row].max(1) - 1;
        }
        check.rows(&job, lengths);
    }
}

/// So many rounds over all makes, each job good and damaged, half of them in a second thread. Says
/// how often each answer number was seen.
fn rounds(
    seed: u64,
    rounds: usize,
    size: impl Fn(&mut Random) -> (usize, usize) + Sync,
) -> [u64; 14] {
    let halves: [[u64; 14]; 2] = in_halves(|half| {
        let mut check = Check::new(seed + half as u64);
        let mut random = Random::new(seed + half as u64);
        for make in MAKES.repeat(rounds / 2) {
            let (n, c) = size(&mut random);
            let job = jobs::job(&mut random, make, n, c);
            good(&mut check, &job, make);
            damaged(&mut check, &mut random, &job);
        }
        std::array::from_fn(|number| check.seen(number))
    });
    std::array::from_fn(|number| halves[0][number] + halves[1][number])
}

// Up to 6 characters and 8 candidates, so that demand 3 is held over all chains and paths too.
#[test]
fn random_small_jobs() {
    let seen = rounds(130, 30_000, |random| (random.below(7), random.below(9)));
    assert_eq!(seen.iter().sum::<u64>(), 7 * 30_000 * 4);
    assert!(
        (0..=12)
            .filter(|&n| n != 2 && n != 4)
            .all(|n| seen[n] >= 2_000),
        "{seen:?}"
    );
    assert!(seen[0] >= 200_000 && seen[12] >= 70_000, "{seen:?}");
}

// Sizes of real addresses and notes.
#[test]
fn random_middle_jobs() {
    let seen = rounds(132, 400, |random| {
        let n = random.below(400);
        (n, random.below(6 * n + 1))
    });
    assert_eq!(seen.iter().sum::<u64>(), 7 * 400 * 4);
    assert!(seen[0] >= 2_000 && seen[12] >= 400, "{seen:?}");
}

// The largest jobs: both sizes at their limits, and one of them with little of the other.
#[test]
fn random_largest_jobs() {
    let seen = rounds(134, 4, |_| (MOST_CHARACTERS, MOST_CANDIDATES));
    assert_eq!(seen.iter().sum::<u64>(), 7 * 4 * 4);
    let few = rounds(136, 4, |random| {
        let few = 1 + random.below(60);
        random.one_of(&[(MOST_CHARACTERS, few), (few, MOST_CANDIDATES)])
    });
    assert_eq!(few.iter().sum::<u64>(), 7 * 4 * 4);
    assert!(seen[0] + few[0] >= 50, "{seen:?} {few:?}");
}

// Ties are there to be broken: in most of these jobs the least cost has more than one path.
#[test]
fn random_ties() {
    let mut check = Check::new(138);
    let mut random = Random::new(138);
    for _ in 0..30_000 {
        let (n, c) = (1 + random.below(5), 4 + random.below(5));
        let mut job = jobs::job(&mut random, Make::Ties, n, c);
        job = job.matrix(1, 1, &[random.one_of(&[-1, 0, 1])]);
        job.entry
            .chunks_mut(10)
            .for_each(|entry| entry[6..].fill(0));
        check.job(&job);
    }
    assert_eq!(check.seen(0), 30_000);
    assert!(check.tied() >= 10_000, "{}", check.tied());
}

// Both ends of the cost range are attained.
#[test]
fn both_ends_of_the_cost_range() {
    let mut check = Check::new(139);
    let words = Vec::from_iter(0..MOST_CHARACTERS);
    for letter in ['東', 'a', '𠀀'] {
        let highest = jobs::at_the_end(letter, 32_767).decompose([0, 32_767, 0, 32_767]);
        gives(&mut check, &highest, 536_887_295, &words);
        let lowest = jobs::at_the_end(letter, -32_768);
        gives(&mut check, &lowest, -402_685_952, &words);
    }
    assert_eq!([LEAST_COST, GREATEST_COST], [-402_685_952, 536_887_295]);
    assert_eq!(check.cases(), 6);
}
