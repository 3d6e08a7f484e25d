//! Makes a failing job as small as it will go, and prints it so that it can be pasted as a test.

use crate::jobs::{Candidate, Job};
use crate::library::segment::Penalty;

/// The smallest job found that still fails: the text cut, candidates dropped, numbers lowered to 0,
/// the matrix 1×1, the mode Normal.
pub fn smallest(mut job: Job, mut fails: impl FnMut(&Job) -> bool) -> Job {
    loop {
        let before = job.clone();
        // The text first: a path outlives a cut, and the candidates in it go with the characters.
        cut_text(&mut job, &mut fails);
        drop_candidates(&mut job, &mut fails);
        for simpler in [normal, one_joint, joints_0, costs_0, letters] {
            let other = simpler(&job);
            attempt(&mut job, other, &mut fails);
        }
        lower_candidates(&mut job, &mut fails);
        lower_joints(&mut job, &mut fails);
        lower_penalty(&mut job, &mut fails);
        if job == before {
            return job;
        }
    }
}

/// The code that makes a job.
pub fn pasted(job: &Job) -> String {
    let text = String::from_utf8_lossy(&job.text);
    let (height, width, matrix) = (job.height, job.width, &job.matrix);
    let mut code = format!(
        "let mut job = Job::new({text:?}.as_bytes()).matrix({height}, {width}, &{matrix:?});\n"
    );
    if job.mode == 1 {
        code += &format!("job = job.decompose({:?});\n", penalty(job));
    }
    for k in 0..job.candidates() {
        code += &format!("job.push({:?});\n", job.candidate(k));
    }
    code + "check.job(&job);\n"
}

/// Takes the other job if it fails too.
fn attempt(job: &mut Job, other: Job, fails: &mut impl FnMut(&Job) -> bool) -> bool {
    let taken = other != *job && fails(&other);
    if taken {
        *job = other;
    }
    taken
}

/// First many at once, then fewer and fewer, then one by one.
fn in_parts(
    job: &mut Job,
    size: impl Fn(&Job) -> usize,
    without: impl Fn(&Job, usize, usize) -> Job,
    fails: &mut impl FnMut(&Job) -> bool,
) {
    let mut part = size(job);
    while part > 0 {
        let mut from = 0;
        while from < size(job) {
            let to = size(job).min(from + part);
            if !attempt(job, without(job, from, to), fails) {
                from = to;
            }
        }
        part /= 2;
    }
}

fn drop_candidates(job: &mut Job, fails: &mut impl FnMut(&Job) -> bool) {
    let without = |job: &Job, from: usize, to: usize| {
        let kept = (0..job.candidates()).filter(|k| !(from..to).contains(k));
        with_candidates(job, kept.map(|k| job.candidate(k)))
    };
    in_parts(job, Job::candidates, without, fails);
}

/// Cuts characters out; words over them become shorter, and those that would be empty go.
fn cut_text(job: &mut Job, fails: &mut impl FnMut(&Job) -> bool) {
    let without = |job: &Job, from: usize, to: usize| {
        let moved = |position: u16| match usize::from(position) {
            at if at <= from => position,
            at if at <= to => from as u16,
            at => (at - (to - from)) as u16,
        };
        let cut = (0..job.candidates()).map(|k| job.candidate(k));
        let cut = cut.map(|candidate| Candidate {
            start: moved(candidate.start),
            end: moved(candidate.end),
            ..candidate
        });
        let mut other =
            with_candidates(job, cut.filter(|candidate| candidate.start < candidate.end));
        let text = characters(job);
        other.text = [&text[..from], &text[to..]]
            .concat()
            .iter()
            .collect::<String>()
            .into();
        other
    };
    in_parts(job, Job::characters, without, fails);
}

fn characters(job: &Job) -> Vec<char> {
    String::from_utf8_lossy(&job.text).chars().collect()
}

fn with_candidates(job: &Job, candidates: impl Iterator<Item = Candidate>) -> Job {
    let mut other = Job {
        text: job.text.clone(),
        matrix: job.matrix.clone(),
        height: job.height,
        width: job.width,
        mode: job.mode,
        penalty: job.penalty,
        ..Job::default()
    };
    candidates.for_each(|candidate| other.push(candidate));
    other
}

fn normal(job: &Job) -> Job {
    Job {
        mode: 0,
        penalty: Penalty::default(),
        ..job.clone()
    }
}

fn one_joint(job: &Job) -> Job {
    let candidates = (0..job.candidates()).map(|k| Candidate {
        left_id: 0,
        right_id: 0,
        ..job.candidate(k)
    });
    with_candidates(job, candidates).matrix(1, 1, &job.matrix[..1])
}

fn joints_0(job: &Job) -> Job {
    let values = vec![0; job.matrix.len()];
    job.clone().matrix(job.height, job.width, &values)
}

fn costs_0(job: &Job) -> Job {
    let candidates = (0..job.candidates()).map(|k| Candidate {
        cost: 0,
        extra: 0,
        ..job.candidate(k)
    });
    with_candidates(job, candidates)
}

fn letters(job: &Job) -> Job {
    Job {
        text: vec![b'a'; job.characters()],
        ..job.clone()
    }
}

/// What a number may become: simpler ones first.
fn lower(value: i16) -> [i16; 4] {
    [0, 1, -1, value / 2]
}

fn lower_candidates(job: &mut Job, fails: &mut impl FnMut(&Job) -> bool) {
    for k in 0..job.candidates() {
        let one = job.candidate(k);
        let plain = Candidate {
            start: one.start,
            end: one.end,
            id: 1_000 + k as u32,
            ..Candidate::default()
        };
        let mut others = vec![
            plain,
            Candidate {
                id: plain.id,
                ..one
            },
            Candidate { kind: 0, ..one },
            Candidate { left_id: 0, ..one },
            Candidate { right_id: 0, ..one },
        ];
        let costs = lower(one.cost).map(|cost| Candidate { cost, ..one });
        let extras = lower(one.extra).map(|extra| Candidate { extra, ..one });
        others.extend(costs.into_iter().chain(extras));
        for other in others {
            let put = |at: usize| if at == k { other } else { job.candidate(at) };
            let with_other = with_candidates(job, (0..job.candidates()).map(put));
            if is_simpler(&other, &one) && attempt(job, with_other, fails) {
                break;
            }
        }
    }
}

/// So that no two forms of a candidate are taken by turns for ever.
fn is_simpler(other: &Candidate, one: &Candidate) -> bool {
    let weight = |candidate: &Candidate| {
        let numbers = [candidate.cost, candidate.extra];
        let [cost, extra] = numbers.map(|number| (number.unsigned_abs(), number < 0));
        let ids = (candidate.left_id, candidate.right_id);
        (cost, extra, candidate.kind, ids, candidate.id)
    };
    weight(other) < weight(one)
}

fn lower_joints(job: &mut Job, fails: &mut impl FnMut(&Job) -> bool) {
    for at in 0..job.matrix.len() {
        let value = job.matrix[at];
        for other in lower(value) {
            let mut values = job.matrix.clone();
            values[at] = other;
            let with_other = job.clone().matrix(job.height, job.width, &values);
            let size = |value: i16| (value.unsigned_abs(), value < 0);
            if size(other) < size(value) && attempt(job, with_other, fails) {
                break;
            }
        }
    }
}

fn penalty(job: &Job) -> [u32; 4] {
    let penalty = job.penalty;
    [
        penalty.kanji_threshold,
        penalty.kanji_price,
        penalty.other_threshold,
        penalty.other_price,
    ]
}

/// The kanji threshold stays the lower one, so that the job stays in the domain.
fn lower_penalty(job: &mut Job, fails: &mut impl FnMut(&Job) -> bool) {
    for at in [0, 2, 1, 3] {
        let value = penalty(job)[at];
        for other in [0, 1, value / 2, value.saturating_sub(1)] {
            let mut numbers = penalty(job);
            numbers[at] = other;
            let lower = other < value && numbers[0] <= numbers[2];
            if lower && job.mode == 1 && attempt(job, job.clone().decompose(numbers), fails) {
                break;
            }
        }
    }
}
