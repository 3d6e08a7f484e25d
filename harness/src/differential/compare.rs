//! One job through the library, held against an answer and rows that are given.

use crate::check::lent::{Guarded, Laid};
use crate::jobs::Job;
use crate::library::segment::{Given, Lent};
use crate::library::Answer;
use crate::model::segment::{named, Written};
use crate::random::Random;
use oracle::Rows;

/// What does the job: the library, or in a test something that is wrong on purpose.
pub type Segmenter = fn(Given, Lent) -> Answer;

/// Buffers that are used again from job to job.
pub struct Compare {
    segmenter: Segmenter,
    laid: Laid,
    rows: Guarded,
    due: Written,
}

impl Compare {
    pub fn new(segmenter: Segmenter) -> Compare {
        Compare {
            segmenter,
            laid: Laid::default(),
            rows: Guarded::default(),
            due: Written::default(),
        }
    }

    /// The first difference, in words: of the answer, of a place that is written, or of one that is
    /// not and has changed, guards and rows only read among them. The salt decides what the rows hold
    /// before, and whether they have places to spare.
    pub fn difference(
        &mut self,
        job: &Job,
        answer: Answer,
        rows: &Rows,
        salt: u64,
    ) -> Option<String> {
        let mut random = Random::new(salt);
        let (spare, salt) = (random.below(4), random.bits());
        let lengths = named(rows.offset.len() - 1, job.candidates());
        self.laid.lay_out(job, salt);
        self.rows.refill(lengths.map(|places| places + spare), salt);
        self.rows.copy_to(&mut self.due);
        lay_over(rows, &mut self.due);

        let found = (self.segmenter)(self.laid.given(&job.given()), self.rows.lent());
        if found != answer {
            return Some(format!("the answer is {found:?} and not {answer:?}"));
        }
        let difference = self.rows.difference(&self.due);
        difference.or_else(|| self.laid.difference(job))
    }
}

/// The places written over what was there before.
fn lay_over(rows: &Rows, due: &mut Written) {
    lay(&rows.offset, &mut due.offset);
    lay(&rows.run, &mut due.run);
    lay(&rows.first, &mut due.first);
    lay(&rows.last, &mut due.last);
    lay(&rows.left, &mut due.left);
    lay(&rows.cost, &mut due.cost);
    lay(&rows.next, &mut due.next);
    lay(&rows.word_offset, &mut due.word_offset);
    lay(&rows.word_id, &mut due.word_id);
    lay(&rows.word_kind, &mut due.word_kind);
}

fn lay<T: Copy>(written: &[T], due: &mut [T]) {
    due[..written.len()].copy_from_slice(written);
}
