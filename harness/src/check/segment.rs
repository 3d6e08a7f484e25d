//! The whole job, held against the model, to demand 3 over all chains and paths where there are few
//! candidates, and against the two other operations over its rows.

use super::lent::{Guarded, Laid};
use crate::chains::Chains;
use crate::jobs::Job;
use crate::library::segment::Given;
use crate::library::{self, Answer};
use crate::model::segment::{named, word_id, Written};
use crate::model::{self, NONE};
use crate::random::Random;

/// Up to so many candidates all chains and paths are gone through.
const FEW: usize = 9;

/// Buffers that are used again from case to case, and counts of what was seen.
pub struct Check {
    random: Random,
    laid: Laid,
    rows: Guarded,
    before: Written,
    after: Written,
    due: Written,
    seen: [u64; 14],
    tied: u64,
}

impl Check {
    pub fn new(seed: u64) -> Check {
        Check {
            random: Random::new(seed),
            laid: Laid::default(),
            rows: Guarded::default(),
            before: Written::default(),
            after: Written::default(),
            due: Written::default(),
            seen: [0; 14],
            tied: 0,
        }
    }

    /// One case with rows that always have room, and places to spare behind those named.
    pub fn job(&mut self, job: &Job) -> Answer {
        let named = named(job.characters(), job.candidates());
        let spare = self.random.below(4);
        self.rows(job, named.map(|places| places + spare))
    }

    /// One case with rows of these lengths: the answer, every place and every guard of the ten rows
    /// that are written and of the seven that are only read are compared.
    pub fn rows(&mut self, job: &Job, lengths: [usize; 10]) -> Answer {
        let salt = self.random.bits();
        self.laid.lay_out(job, salt);
        self.rows.refill(lengths, salt);
        self.rows.copy_to(&mut self.before);
        self.rows.copy_to(&mut self.due);

        let given = job.given();
        let due = model::segment::segment(&given, &mut self.due);
        let answer = library::segment::segment(self.laid.given(&given), self.rows.lent());

        assert_eq!(answer, due, "{}", job.shown());
        let difference = self.laid.difference(job);
        let difference = difference.or_else(|| self.rows.difference(&self.due));
        if let Some(difference) = difference {
            panic!("{difference}; {}", job.shown());
        }
        self.rows.copy_to(&mut self.after);
        if answer.number == 0 || answer.number == 12 {
            parts_agree(&given, &self.after, answer, job);
            self.hold_demand_3(job, answer);
        }
        assert!(self.is_kept(answer), "{}", job.shown());
        self.seen[answer.number as usize] += 1;
        answer
    }

    /// Whether a refusal left what it has to leave: all rows, or in answer 12 the word rows; and
    /// an answer 0 the word places beyond the count.
    fn is_kept(&self, answer: Answer) -> bool {
        let (before, after) = (&self.before, &self.after);
        let count = answer.count as usize;
        let words = before.word_offset[count..] == after.word_offset[count..]
            && before.word_id[count..] == after.word_id[count..]
            && before.word_kind[count..] == after.word_kind[count..];
        words && (answer.number == 0 || answer.number == 12 || before == after)
    }

    /// With few candidates, the answer and the rows that came with it over all chains and paths.
    fn hold_demand_3(&mut self, job: &Job, answer: Answer) {
        if job.candidates() <= FEW {
            let chains = Chains::of(&job.given());
            chains.hold(job, answer, &self.after);
            self.tied += u64::from(chains.least_paths().count() > 1);
        }
    }

    /// The rows as the last case left them.
    pub fn written(&self) -> &Written {
        &self.after
    }

    /// How many cases were compared.
    pub fn cases(&self) -> u64 {
        self.seen.iter().sum()
    }

    /// How many of them had this answer number.
    pub fn seen(&self, number: usize) -> u64 {
        self.seen[number]
    }

    /// How many of them had few candidates and more than one path of least cost.
    pub fn tied(&self) -> u64 {
        self.tied
    }
}

/// The walk back alone finds the job's words in the job's rows, or the broken link of an end mark
/// that is not reached; the character table alone fills the same two rows.
fn parts_agree(given: &Given, rows: &Written, answer: Answer, job: &Job) {
    let n = job.characters();
    let (c, count) = (given.start.len(), answer.count as usize);
    let mut word = vec![NONE; n];
    let walked =
        library::walk_back::walk_back(given.start, given.end, &rows.left, n as u32, &mut word);
    if answer.number == 12 {
        assert_eq!(walked, Answer::refused(13, 0), "{}", job.shown());
    } else {
        assert_eq!(walked, Answer::done(count, 0), "{}", job.shown());
        assert_eq!(answer.cost, rows.cost[c + 1], "{}", job.shown());
    }
    for (i, k) in word.into_iter().map(usize::from).take(count).enumerate() {
        let found = (rows.word_offset[i], rows.word_id[i], rows.word_kind[i]);
        let offset = rows.offset[usize::from(given.start[k])];
        let due = (offset, word_id(given, k), given.kind[k]);
        assert_eq!(found, due, "word {i}, {}", job.shown());
    }

    let (mut offset, mut run) = (vec![0; n + 1], vec![0; n + 1]);
    let table = library::characters::characters(given.text, &mut offset, &mut run);
    assert_eq!(table, Answer::done(n, 0), "{}", job.shown());
    assert_eq!(offset, rows.offset[..n + 1], "{}", job.shown());
    assert_eq!(run, rows.run[..n + 1], "{}", job.shown());
}
