//! The replay list: jobs with the Rust's answers, recorded for machines that have no source of it.
//!
//! Little-endian records, one after the other until the list ends. Thirteen numbers of four bytes: text
//! length, n, c, height, width, mode, K, P, O, Q, answer number, word count, cost; then text, start, end,
//! kind, extra, entry, matrix, and the places written of offset, run, first, last, left, cost, next, word
//! offset, word id and word kind.

pub mod recorded;

use crate::jobs::Job;
use crate::library::segment::Penalty;
use crate::library::Answer;
use oracle::Rows;
use std::path::PathBuf;

/// A job and the Rust's answer to it.
#[derive(Clone, Debug, PartialEq, Eq)]
pub struct Record {
    pub job: Job,
    pub answer: Answer,
    pub rows: Rows,
}

/// Where the list lies.
pub fn path() -> PathBuf {
    PathBuf::from(env!("CARGO_MANIFEST_DIR")).join("../crates/replay/stdin")
}

/// The list as bytes.
pub fn written(records: &[Record]) -> Vec<u8> {
    let mut list = Vec::new();
    for record in records {
        record.write(&mut list);
    }
    list
}

/// The records of a list, which has to end with one of them.
pub fn read(list: &[u8]) -> Vec<Record> {
    let mut reader = Reader { rest: list };
    let mut records = Vec::new();
    while !reader.rest.is_empty() {
        records.push(reader.record());
    }
    records
}

impl Record {
    fn write(&self, list: &mut Vec<u8>) {
        let Record { job, answer, rows } = self;
        let penalty = job.penalty;
        let sizes = [job.text.len(), job.characters(), job.candidates()].map(|size| size as u32);
        let matrix = [job.height, job.width];
        let mode = [
            job.mode,
            penalty.kanji_threshold,
            penalty.kanji_price,
            penalty.other_threshold,
            penalty.other_price,
        ];
        let found = [answer.number, answer.count, answer.cost as u32];
        put(list, &[&sizes[..], &matrix, &mode, &found].concat());

        put(list, &job.text);
        put(list, &job.start);
        put(list, &job.end);
        put(list, &job.kind);
        put(list, &job.extra);
        put(list, &job.entry);
        put(list, &job.matrix);
        put(list, &rows.offset);
        put(list, &rows.run);
        put(list, &rows.first);
        put(list, &rows.last);
        put(list, &rows.left);
        put(list, &rows.cost);
        put(list, &rows.next);
        put(list, &rows.word_offset);
        put(list, &rows.word_id);
        put(list, &rows.word_kind);
    }
}

struct Reader<'a> {
    rest: &'a [u8],
}

impl Reader<'_> {
    fn record(&mut self) -> Record {
        let head: Vec<u32> = self.take(13);
        let sizes = |i: usize| head[i] as usize;
        let (n, c, count) = (sizes(1), sizes(2), sizes(11));
        let job = Job {
            text: self.take(sizes(0)),
            start: self.take(c),
            end: self.take(c),
            kind: self.take(c),
            extra: self.take(c),
            entry: self.take(10 * c),
            height: head[3],
            width: head[4],
            matrix: self.take(sizes(3) * sizes(4)),
            mode: head[5],
            penalty: Penalty {
                kanji_threshold: head[6],
                kanji_price: head[7],
                other_threshold: head[8],
                other_price: head[9],
            },
        };
        let answer = Answer {
            number: head[10],
            place: 0,
            count: head[11],
            cost: head[12] as i32,
        };
        let rows = self.rows(n, c, count);
        Record { job, answer, rows }
    }

    fn rows(&mut self, n: usize, c: usize, count: usize) -> Rows {
        Rows {
            offset: self.take(n + 1),
            run: self.take(n + 1),
            first: self.take(n + 1),
            last: self.take(n + 1),
            left: self.take(c + 2),
            cost: self.take(c + 2),
            next: self.take(c + 2),
            word_offset: self.take(count),
            word_id: self.take(count),
            word_kind: self.take(count),
        }
    }

    /// So many numbers.
    fn take<T: Number>(&mut self, count: usize) -> Vec<T> {
        let (taken, rest) = self.rest.split_at(count * size_of::<T>());
        self.rest = rest;
        taken.chunks(size_of::<T>()).map(T::from_bytes).collect()
    }
}

fn put<T: Number>(list: &mut Vec<u8>, numbers: &[T]) {
    for number in numbers {
        number.put(list);
    }
}

/// A number as its little-endian bytes.
trait Number: Sized {
    fn put(&self, list: &mut Vec<u8>);
    fn from_bytes(bytes: &[u8]) -> Self;
}

macro_rules! numbers {
    ($($number:ty)*) => {
        $(impl Number for $number {
            fn put(&self, list: &mut Vec<u8>) {
                list.extend(self.to_le_bytes());
            }

            fn from_bytes(bytes: &[u8]) -> $number {
                <$number>::from_le_bytes(bytes.try_into().expect("as many bytes as it has"))
            }
        })*
    };
}

numbers!(u8 u16 i16 u32 i32);
