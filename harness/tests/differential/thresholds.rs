//! Where the other threshold O is below the kanji threshold K the Rust charges otherwise, and only there.

use crate::against;
use harness::check::segment::Check;
use harness::differential::rust::Rust;
use harness::jobs::{self, Job, MAKES};
use harness::library::segment::segment;
use harness::library::Answer;
use harness::model::characters::is_kanji;
use harness::random::Random;

// The Rust takes the one word of two characters for nothing; document 01 charges it 1,700.
#[test]
fn two_answers() {
    let job = Job::of("アイ".as_bytes(), &[(0, 1, 50), (0, 2, 0), (1, 2, 50)]);
    let job = job.decompose([2, 3_000, 1, 1_700]);
    let mut check = Check::new(171);
    assert_eq!(check.job(&job), Answer::done(2, 100));
    assert_eq!(check.written().word_id[..2], [1_000, 1_002]);

    if let Some(mut rust) = Rust::new() {
        let (answer, rows) = rust.answer(&job);
        assert_eq!(answer, Answer::done(1, 0));
        assert_eq!(rows.word_id, [1_001]);
    }
}

/// Whether there is a word with O < L ≤ K that is not kanji only.
fn is_between(job: &Job) -> bool {
    let text = String::from_utf8(job.text.clone()).expect("the text passes the tests");
    let text: Vec<char> = text.chars().collect();
    let between = job.penalty.other_threshold + 1..=job.penalty.kanji_threshold;
    (job.start.iter().zip(&job.end)).any(|(&start, &end)| {
        let word = &text[start.into()..end.into()];
        between.contains(&(word.len() as u32)) && !word.iter().all(|&letter| is_kanji(letter))
    })
}

#[test]
fn only_with_a_word_between() {
    let Some(mut differential) = against(segment, 172) else {
        return;
    };
    let mut random = Random::new(172);
    let (mut between, mut differ) = (0, 0);
    for make in MAKES.repeat(20_000) {
        let (n, c) = (random.below(7), random.below(9));
        let mut job = jobs::job(&mut random, make, n, c);
        let other = random.below(6) as u32;
        let kanji = other + 1 + random.below(4) as u32;
        let prices = [job.penalty.kanji_price, job.penalty.other_price];
        job = job.decompose([kanji, prices[0], other, prices[1]]);
        let difference = differential.difference(&job, 172);
        assert!(difference.is_none() || is_between(&job), "{}", job.shown());
        between += u64::from(is_between(&job));
        differ += u64::from(difference.is_some());
    }
    assert_eq!(differential.answered()[0], 140_000);
    assert!(
        differ >= 15_000 && between >= differ && between <= 120_000,
        "{differ} {between}"
    );
}
