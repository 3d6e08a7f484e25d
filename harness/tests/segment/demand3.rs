//! Demand 3 and the rule for ties, on jobs of few different costs: very often more than one path has
//! the least.

use crate::texts;
use harness::chains::Chains;
use harness::check::segment::Check;
use harness::check::{every, in_halves};
use harness::jobs::{every_list, Job};
use harness::model::segment::word_id;
use harness::model::NONE;
use harness::random::Random;

/// A check that counts more.
struct Counting {
    check: Check,
    /// Ties that end otherwise if the paths are read from the first word to the last.
    turned: u64,
    /// Cases with a candidate that is not reached.
    unreached: u64,
}

impl Counting {
    /// One case. Its candidates have different ids.
    fn job(&mut self, job: &Job) {
        let tied = self.check.tied();
        let count = self.check.job(job).count as usize;
        let rows = self.check.written();
        let left = &rows.left[1..=job.candidates()];
        self.unreached += u64::from(left.contains(&NONE));
        if self.check.tied() > tied {
            let forwards = lowest_forwards(job);
            self.turned += u64::from(forwards != rows.word_id[..count]);
        }
    }
}

/// The ids of that path of least cost which, read from the first word to the last, is the lowest.
fn lowest_forwards(job: &Job) -> Vec<u32> {
    let chains = Chains::of(&job.given());
    let words = chains.least_paths().map(|path| &path.words).min();
    let words = words.into_iter().flatten();
    words.map(|&k| word_id(&job.given(), k)).collect()
}

/// Both halves of a work, the second in a thread of its own. Says how many cases there were, how many
/// of answer 0 and of 12, tied, turned and with a candidate that is not reached.
fn counted(seed: u64, work: impl Fn(&mut Counting, usize) + Sync) -> [u64; 6] {
    let halves = in_halves(|half| {
        let mut counting = Counting {
            check: Check::new(seed + half as u64),
            turned: 0,
            unreached: 0,
        };
        work(&mut counting, half);
        [
            counting.check.cases(),
            counting.check.seen(0),
            counting.check.seen(12),
            counting.check.tied(),
            counting.turned,
            counting.unreached,
        ]
    });
    std::array::from_fn(|i| halves[0][i] + halves[1][i])
}

/// The work for every list of up to 4 candidates over 2 and over 3 characters.
fn for_each_list(seed: u64, work: impl Fn(&mut Counting, u16, &[(u16, u16)]) + Sync) -> [u64; 6] {
    counted(seed, |counting, half| {
        for n in 2..=3 {
            for c in 0..=4 {
                for list in every_list(n, c).iter().skip(half).step_by(2) {
                    work(counting, n, list);
                }
            }
        }
    })
}

/// How many lists of spans there are, weighed by what is done with each.
fn lists_times(weight: impl Fn(u32, u32) -> u64) -> u64 {
    // Counted by hand: over 2 and 3 characters, of 0 to 4 candidates.
    let lists = [(2, [1, 3, 7, 15, 31]), (3, [1, 6, 25, 90, 301])];
    let all = lists.into_iter().flat_map(|(n, lists)| {
        let each = (0..).zip(lists);
        each.map(move |(c, lists)| (n, c, lists))
    });
    all.map(|(n, c, lists)| lists * weight(n, c)).sum()
}

/// The usual job with words of these spans and costs.
fn job(text: &str, spans: &[(u16, u16)], costs: &[i16]) -> Job {
    let words = spans.iter().zip(costs);
    let candidates = words.map(|(&(start, end), &cost)| (start, end, cost));
    Job::of(text.as_bytes(), &Vec::from_iter(candidates))
}

// Costs 0 and 1, in Normal and in Decompose, over texts of every mixture of kanji and letters.
#[test]
fn every_job_of_two_costs() {
    let penalties = [[0, 1, 0, 1], [1, 1, 1, 1], [1, 1, 2, 1], [2, 1, 1, 1]];
    let [cases, done, no_path, tied, turned, unreached] =
        for_each_list(140, |counting, n, spans| {
            for text in texts(n) {
                for costs in every(spans.len(), &[0, 1]) {
                    let mut job = job(&text, spans, &costs);
                    counting.job(&job);
                    for penalty in penalties {
                        job = job.decompose(penalty);
                        counting.job(&job);
                    }
                }
            }
        });
    let each = |n, c| 2_u64.pow(n) * 2_u64.pow(c) * (1 + 4);
    assert_eq!(cases, lists_times(each));
    assert_eq!(cases, done + no_path);
    assert!(done >= 170_000 && no_path >= 60_000);
    assert!(tied >= 45_000 && turned >= 5_000 && unreached >= 90_000);
}

// Equal costs, every left id and right id, and matrices 2×2 whose joints differ, in both modes.
#[test]
fn every_job_of_equal_costs() {
    let matrices = [[0, 1, 1, 0], [0, 1, 0, 0], [0, 0, 1, -1]];
    let [cases, done, no_path, tied, turned, unreached] =
        for_each_list(142, |counting, n, spans| {
            let text = "東".repeat(n.into());
            for ids in every(spans.len(), &[(0, 0), (0, 1), (1, 0), (1, 1)]) {
                let mut job = job(&text, spans, &vec![1; spans.len()]);
                for (k, &(left_id, right_id)) in ids.iter().enumerate() {
                    job.set_left_id(k, left_id);
                    job.set_right_id(k, right_id);
                }
                for values in matrices {
                    job = job.matrix(2, 2, &values);
                    job.mode = 0;
                    counting.job(&job);
                    job = job.decompose([1, 1, 1, 1]);
                    counting.job(&job);
                }
            }
        });
    assert_eq!(cases, lists_times(|_, c| 4_u64.pow(c) * 3 * 2));
    assert_eq!(cases, done + no_path);
    assert!(done >= 400_000 && no_path >= 130_000);
    assert!(tied >= 110_000 && turned >= 12_000 && unreached >= 200_000);
}

/// A job of up to 6 characters and 9 candidates: its costs, extras and joints are out of three, and
/// some word's length is its threshold or is above it by 1.
fn random_job(random: &mut Random) -> Job {
    let letters = random.one_of(&[&['東'][..], &['a'], &['東', '京', 'é', 'a', '𠀀']]);
    let n = 1 + random.below(6);
    let text = String::from_iter((0..n).map(|_| random.one_of(letters)));
    let three = [[0, 0, 0], [0, 0, 1], [-1, 0, 1], [-2, -1, -1], [-9, 4, 5]];
    let three: [i16; 3] = random.one_of(&three);

    let spans = random_spans(random, n);
    let costs: Vec<i16> = spans.iter().map(|_| random.one_of(&three)).collect();
    let mut job = job(&text, &spans, &costs);
    job = job.matrix(2, 2, &[(); 4].map(|()| random.one_of(&three)));
    for k in 0..spans.len() {
        job.kind[k] = random.below(3) as u8;
        job.extra[k] = random.one_of(&three);
        job.set_left_id(k, random.below(2) as u16);
        job.set_right_id(k, random.below(2) as u16);
    }
    if random.below(2) == 0 || spans.is_empty() {
        return job;
    }
    let threshold = |random: &mut Random| {
        let (start, end) = random.one_of(&spans);
        u32::from(end - start) - random.from_to(0, 1)
    };
    let [k, o] = [(); 2].map(|()| threshold(random));
    let [p, q] = [(); 2].map(|()| random.from_to(1, 2));
    job.decompose([k, p, o, q])
}

/// Up to 9 words of up to 3 characters in any places, in the order of their starts.
fn random_spans(random: &mut Random, n: usize) -> Vec<(u16, u16)> {
    let longest = 1 + random.below(3);
    let mut span = || {
        let start = random.below(n);
        let end = n.min(start + 1 + random.below(longest));
        (start as u16, end as u16)
    };
    let mut spans = [(); 9].map(|()| span()).to_vec();
    spans.truncate(random.below(10));
    spans.sort_by_key(|span| span.0);
    spans
}

// Few equal or negative costs, gaps, and charges that begin or end at a word's length.
#[test]
fn random_jobs_of_few_costs() {
    let [cases, done, no_path, tied, turned, unreached] = counted(144, |counting, half| {
        let mut random = Random::new(144 + half as u64);
        for _ in 0..100_000 {
            counting.job(&random_job(&mut random));
        }
    });
    assert_eq!(cases, 2 * 100_000);
    assert_eq!(cases, done + no_path);
    assert!(done >= 90_000 && no_path >= 90_000);
    assert!(tied >= 40_000 && turned >= 3_000 && unreached >= 90_000);
}
