//! Every job of some few characters and candidates.

use crate::texts;
use harness::check::segment::Check;
use harness::check::{every, in_halves};
use harness::jobs::{every_list, Candidate, Job};

/// The work for every number of characters and of candidates up to 3, with half of the lists of
/// spans in a second thread. Says how many cases there were, how many of answer 0 and of 12.
fn for_each_list(seed: u64, work: impl Fn(&mut Check, u16, &[(u16, u16)]) + Sync) -> [u64; 3] {
    let halves = in_halves(|half| {
        let mut check = Check::new(seed + half as u64);
        for n in 0..=3 {
            for c in 0..=3 {
                for list in every_list(n, c).iter().skip(half).step_by(2) {
                    work(&mut check, n, list);
                }
            }
        }
        [check.cases(), check.seen(0), check.seen(12)]
    });
    [0, 1, 2].map(|i| halves[0][i] + halves[1][i])
}

/// How many lists of spans there are, weighed by what is done with each.
fn lists_times(weight: impl Fn(u16, u32) -> u64) -> u64 {
    // Counted by hand: over 0 to 3 characters, of 0 to 3 candidates.
    let lists = [[1, 0, 0, 0], [1, 1, 1, 1], [1, 3, 7, 15], [1, 6, 25, 90]];
    let all = (0..=3).flat_map(|n| (0..=3).map(move |c| (n, c)));
    all.map(|(n, c)| lists[n as usize][c as usize] * weight(n, c))
        .sum()
}

// Costs −1, 0 and 1, in Normal and in Decompose with thresholds from 0 to 3 and three pairs of
// prices, over texts of every mixture of kanji and letters.
#[test]
fn every_small_job() {
    let mut penalties = Vec::new();
    for [k, o] in (0..16).map(|both| [both / 4, both % 4]) {
        penalties.extend([[1, 1], [1, 2], [2, 1]].map(|[p, q]| [k, p, o, q]));
    }
    let [cases, done, no_path] = for_each_list(120, |check, n, spans| {
        let texts = texts(n);
        for costs in every(spans.len(), &[-1, 0, 1]) {
            let mut job = Job::new(&[]);
            for (&(start, end), &cost) in spans.iter().zip(&costs) {
                // In the word entry and in the extra by turns.
                let turn = check.cases() % 2;
                let mut candidate = Candidate {
                    start,
                    end,
                    ..Candidate::default()
                };
                (candidate.cost, candidate.extra) = if turn == 0 { (cost, 0) } else { (0, cost) };
                job.push(candidate);
            }
            for text in &texts {
                job.text = text.clone().into_bytes();
                job.mode = 0;
                check.job(&job);
                for &penalty in &penalties {
                    job = job.decompose(penalty);
                    check.job(&job);
                }
            }
        }
    });
    let each = |n, c| 3_u64.pow(c) * 2_u64.pow(u32::from(n)) * (1 + 48);
    assert_eq!(cases, lists_times(each));
    assert_eq!(cases, done + no_path);
    assert!(no_path >= 100_000);
}

// Every matrix 2×2 of −1, 0 and 1, and every left id and right id.
#[test]
fn every_small_matrix() {
    let matrices = every(4, &[-1, 0, 1]);
    let [cases, done, no_path] = for_each_list(122, |check, n, spans| {
        for ids in every(spans.len(), &[(0, 0), (0, 1), (1, 0), (1, 1)]) {
            let mut job = Job::new(&vec![b'a'; n.into()]);
            for (&(start, end), &(left_id, right_id)) in spans.iter().zip(&ids) {
                job.push(Candidate {
                    start,
                    end,
                    left_id,
                    right_id,
                    ..Candidate::default()
                });
            }
            for values in &matrices {
                job = job.matrix(2, 2, values);
                check.job(&job);
            }
        }
    });
    assert_eq!(cases, lists_times(|_, c| 4_u64.pow(c) * 81));
    assert_eq!(cases, done + no_path);
    assert!(no_path >= 50_000);
}

/// Every candidate with start and end up to n+1, kinds 2 and 3, and ids 0 and 1.
fn good_and_bad(n: u16) -> Vec<Candidate> {
    let mut all = Vec::new();
    for place in every(2, &Vec::from_iter(0..=n + 1)) {
        for bits in 0..8 {
            all.push(Candidate {
                start: place[0],
                end: place[1],
                kind: 2 + (bits & 1) as u8,
                left_id: bits >> 1 & 1,
                right_id: bits >> 2,
                ..Candidate::default()
            });
        }
    }
    all
}

// Up to two candidates, good and bad, with matrices of every height and width up to 2.
#[test]
fn every_good_and_bad_candidate() {
    let mut check = Check::new(124);
    for n in 0..=2_u16 {
        for c in 0..=2 {
            for candidates in every(c, &good_and_bad(n)) {
                let mut job = Job::new(&vec![b'a'; n.into()]);
                candidates
                    .into_iter()
                    .for_each(|candidate| job.push(candidate));
                for (height, width) in [(1, 1), (1, 2), (2, 1), (2, 2)] {
                    job = job.matrix(height, width, &[0, 1, 2, 3][..(height * width) as usize]);
                    check.job(&job);
                }
            }
        }
    }
    let each = [4_u64, 9, 16].map(|places| 8 * places);
    let cases = each.map(|each| 4 * (1 + each + each * each));
    assert_eq!(check.cases(), cases.iter().sum());
    let seen = [0, 8, 9, 10, 11, 12].map(|number| check.seen(number));
    assert_eq!(check.cases(), seen.iter().sum());
    assert!(seen.iter().all(|&seen| seen >= 70), "{seen:?}");
}
