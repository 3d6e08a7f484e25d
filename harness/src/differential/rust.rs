//! The Rust's answers to jobs of document 01.

use crate::jobs::Job;
use crate::library::Answer;
use oracle::{Direct, Matrix, Mode, Rows, Whole};

/// A job as the Rust is handed it; it has to pass document 01's tests.
pub fn handed(job: &Job) -> oracle::Job<'_> {
    let penalty = job.penalty;
    oracle::Job {
        text: std::str::from_utf8(&job.text).expect("the text passes the tests"),
        start: &job.start,
        end: &job.end,
        kind: &job.kind,
        extra: &job.extra,
        entry: job.entry.as_chunks().0,
        mode: match job.mode {
            0 => Mode::Normal,
            _ => Mode::Decompose {
                kanji_threshold: penalty.kanji_threshold,
                kanji_price: penalty.kanji_price,
                other_threshold: penalty.other_threshold,
                other_price: penalty.other_price,
            },
        },
    }
}

/// Both drivers, and what they found.
pub struct Rust {
    direct: Direct,
    whole: Whole,
    rows: Rows,
    again: Rows,
    jobs: u64,
    twice: u64,
}

impl Rust {
    /// Nothing where the Rust's source is missing.
    pub fn new() -> Option<Rust> {
        Some(Rust {
            direct: Direct::new()?,
            whole: Whole::new()?,
            rows: Rows::default(),
            again: Rows::default(),
            jobs: 0,
            twice: 0,
        })
    }

    /// The answer and the places written. The two drivers have to agree on every job that both take.
    pub fn answer(&mut self, job: &Job) -> (Answer, &Rows) {
        let (given, matrix) = (handed(job), Matrix::new(job.height, job.width, &job.matrix));
        let found = self.direct.run(&given, &matrix);
        self.direct.rows(&given, &mut self.rows);
        if let Some(again) = self.whole.run(&given, &matrix) {
            self.whole.rows(&given, &mut self.again);
            assert_eq!(found, again, "the two drivers differ: {}", job.shown());
            let (rows, again) = (&self.rows, &self.again);
            assert_eq!(rows, again, "the two drivers differ: {}", job.shown());
            self.twice += 1;
        }
        self.jobs += 1;
        let answer = match found.number {
            0 => Answer::done(found.count as usize, found.cost),
            number => Answer::refused(number, 0),
        };
        (answer, &self.rows)
    }

    /// How many jobs were answered, and how many of them by both drivers.
    pub fn jobs(&self) -> [u64; 2] {
        [self.jobs, self.twice]
    }
}
