//! The whole job. Every case compares the answer, all places of the ten rows that are written, the
//! seven rows that are only read and the guards around all of them with the model, and where words
//! come out the two other operations over the same rows; with few candidates it also holds demand 3
//! over all chains and paths. Every test counts its cases, so that none runs on nothing.

mod demand3;
mod examples;
mod faults;
mod limits;
mod many;
mod small;

use harness::check::every;
use harness::check::segment::Check;
use harness::jobs::Job;
use harness::library::Answer;
use harness::model::segment::{named, word_id, Written};

/// Any refusal but 1 and 8 to 11.
fn refused(number: u32) -> Answer {
    Answer::refused(number, 0)
}

/// How many places of each row this job asks.
fn asked(job: &Job) -> [usize; 10] {
    named(job.characters(), job.candidates())
}

/// Every text of n characters that are a kanji or a letter.
fn texts(n: u16) -> Vec<String> {
    let lists = every(n.into(), &['東', 'a']);
    lists.into_iter().map(String::from_iter).collect()
}

/// The case with cost and words written out; the words by their candidate numbers.
fn gives(check: &mut Check, job: &Job, cost: i32, words: &[usize]) {
    let answer = check.job(job);
    assert_eq!(answer, Answer::done(words.len(), cost), "{}", job.shown());
    let ids: Vec<u32> = words.iter().map(|&k| word_id(&job.given(), k)).collect();
    let found = &check.written().word_id[..words.len()];
    assert_eq!(found, ids, "{}", job.shown());
}

/// The case with every row written out, in rows that have just the places asked. Of the word rows
/// those beyond the count are left out.
fn fills(check: &mut Check, job: &Job, answer: Answer, due: &Written) {
    assert_eq!(check.rows(job, asked(job)), answer, "{}", job.shown());
    let mut found = check.written().clone();
    let count = answer.count as usize;
    found.word_offset.truncate(count);
    found.word_id.truncate(count);
    found.word_kind.truncate(count);
    assert_eq!(found, *due, "{}", job.shown());
}
