//! The rows of a job between guards, and what differs from what is due.

use super::{Place, Row};
use crate::jobs::Job;
use crate::library::segment::{Given, Lent, Rows};
use crate::model::segment::Written;

/// The rows that are written, between guards.
pub type Guarded = Rows<Row<u32>, Row<u16>, Row<i32>, Row<u8>>;

/// The rows that are only read, between guards.
#[derive(Default)]
pub struct Laid {
    text: Row<u8>,
    start: Row<u16>,
    end: Row<u16>,
    kind: Row<u8>,
    extra: Row<i16>,
    entry: Row<u8>,
    matrix: Row<i16>,
}

impl Laid {
    /// Around the rows lie a byte that would complete a character cut short, a candidate that would
    /// be right, word entries that cost little and joints that cost nothing or very little.
    pub fn lay_out(&mut self, job: &Job, salt: u64) {
        let tempting = if salt & 1 == 0 { -32_768 } else { 0 };
        self.text
            .lay_out(&job.text, if salt & 2 == 0 { 0x80 } else { 0xBF });
        self.start
            .lay_out(&job.start, job.start.last().copied().unwrap_or(0));
        self.end.lay_out(&job.end, job.characters() as u16);
        self.kind.lay_out(&job.kind, 0);
        self.extra.lay_out(&job.extra, tempting);
        self.entry.lay_out(&job.entry, 0);
        self.matrix.lay_out(&job.matrix, tempting);
    }

    /// The same job from between the guards.
    pub fn given(&self, given: &Given) -> Given<'_> {
        Given {
            text: self.text.lent(),
            start: self.start.lent(),
            end: self.end.lent(),
            kind: self.kind.lent(),
            extra: self.extra.lent(),
            entry: self.entry.lent(),
            matrix: self.matrix.lent(),
            ..*given
        }
    }

    /// The first difference from what was laid out, in words.
    pub fn difference(&self, job: &Job) -> Option<String> {
        differs("text", &self.text, &job.text)
            .or_else(|| differs("start", &self.start, &job.start))
            .or_else(|| differs("end", &self.end, &job.end))
            .or_else(|| differs("kind", &self.kind, &job.kind))
            .or_else(|| differs("extra", &self.extra, &job.extra))
            .or_else(|| differs("entry", &self.entry, &job.entry))
            .or_else(|| differs("matrix", &self.matrix, &job.matrix))
    }
}

impl Guarded {
    /// Each row has a pattern of its own.
    pub fn refill(&mut self, lengths: [usize; 10], salt: u64) {
        let [offset, run, first, last, left, cost, next, words @ ..] = lengths;
        self.offset.refill(offset, salt);
        self.run.refill(run, salt >> 4);
        self.first.refill(first, salt >> 8);
        self.last.refill(last, salt >> 12);
        self.left.refill(left, salt >> 16);
        self.cost.refill(cost, salt >> 20);
        self.next.refill(next, salt >> 24);
        self.word_offset.refill(words[0], salt >> 28);
        self.word_id.refill(words[1], salt >> 32);
        self.word_kind.refill(words[2], salt >> 36);
    }

    pub fn copy_to(&self, rows: &mut Written) {
        copy(&self.offset, &mut rows.offset);
        copy(&self.run, &mut rows.run);
        copy(&self.first, &mut rows.first);
        copy(&self.last, &mut rows.last);
        copy(&self.left, &mut rows.left);
        copy(&self.cost, &mut rows.cost);
        copy(&self.next, &mut rows.next);
        copy(&self.word_offset, &mut rows.word_offset);
        copy(&self.word_id, &mut rows.word_id);
        copy(&self.word_kind, &mut rows.word_kind);
    }

    pub fn lent(&mut self) -> Lent<'_> {
        Rows {
            offset: self.offset.lent_mut(),
            run: self.run.lent_mut(),
            first: self.first.lent_mut(),
            last: self.last.lent_mut(),
            left: self.left.lent_mut(),
            cost: self.cost.lent_mut(),
            next: self.next.lent_mut(),
            word_offset: self.word_offset.lent_mut(),
            word_id: self.word_id.lent_mut(),
            word_kind: self.word_kind.lent_mut(),
        }
    }

    /// The first difference from what is due, in words.
    pub fn difference(&self, due: &Written) -> Option<String> {
        differs("offset", &self.offset, &due.offset)
            .or_else(|| differs("run", &self.run, &due.run))
            .or_else(|| differs("first", &self.first, &due.first))
            .or_else(|| differs("last", &self.last, &due.last))
            .or_else(|| differs("left", &self.left, &due.left))
            .or_else(|| differs("cost", &self.cost, &due.cost))
            .or_else(|| differs("next", &self.next, &due.next))
            .or_else(|| differs("word offset", &self.word_offset, &due.word_offset))
            .or_else(|| differs("word id", &self.word_id, &due.word_id))
            .or_else(|| differs("word kind", &self.word_kind, &due.word_kind))
    }
}

fn copy<T: Place>(row: &Row<T>, to: &mut Vec<T>) {
    to.clear();
    to.extend_from_slice(row.lent());
}

fn differs<T: Place>(name: &str, row: &Row<T>, expected: &[T]) -> Option<String> {
    let difference = row.difference(expected)?;
    Some(format!("{name} row: {difference}"))
}
