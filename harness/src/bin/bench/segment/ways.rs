//! The three ways to do a whole job, and that they do the same.

use harness::differential::rust::handed;
use harness::jobs::Job;
use harness::library::segment::{segment, Given, Lent};
use harness::model::segment::{named, Written};
use harness::model::NONE;
use oracle::{Direct, Matrix};

/// Each of them a `Way`, whatever its job borrows.
pub const WAYS: [fn(&Handed, &mut Sides) -> u32; 3] = [library, cleared, rust];

/// A job as either side is handed it before the clock starts. Both read the same matrix.
pub struct Handed<'a> {
    library: Given<'a>,
    rust: oracle::Job<'a>,
    matrix: &'a Matrix,
}

impl<'a> Handed<'a> {
    pub fn of(job: &'a Job, ids: usize, matrix: &'a Matrix) -> Handed<'a> {
        Handed {
            library: Given {
                height: ids as u32,
                width: ids as u32,
                matrix: matrix.values(),
                ..job.given()
            },
            rust: handed(job),
            matrix,
        }
    }
}

/// What each side uses again from job to job.
pub struct Sides {
    rows: Written,
    direct: Direct,
}

impl Sides {
    /// Nothing where the Rust's source is missing.
    pub fn new(n: usize, c: usize) -> Option<Sides> {
        Some(Sides {
            rows: rows(n, c),
            direct: Direct::new()?,
        })
    }
}

fn rows(n: usize, c: usize) -> Written {
    let [offset, run, first, last, left, cost, next, words @ ..] = named(n, c);
    Written {
        offset: vec![0; offset],
        run: vec![0; run],
        first: vec![0; first],
        last: vec![0; last],
        left: vec![0; left],
        cost: vec![0; cost],
        next: vec![0; next],
        word_offset: vec![0; words[0]],
        word_id: vec![0; words[1]],
        word_kind: vec![0; words[2]],
    }
}

fn lent(rows: &mut Written) -> Lent<'_> {
    Lent {
        offset: &mut rows.offset,
        run: &mut rows.run,
        first: &mut rows.first,
        last: &mut rows.last,
        left: &mut rows.left,
        cost: &mut rows.cost,
        next: &mut rows.next,
        word_offset: &mut rows.word_offset,
        word_id: &mut rows.word_id,
        word_kind: &mut rows.word_kind,
    }
}

fn clear(rows: &mut Written) {
    rows.offset.fill(0);
    rows.run.fill(0);
    rows.first.fill(0);
    rows.last.fill(0);
    rows.left.fill(0);
    rows.cost.fill(0);
    rows.next.fill(0);
    rows.word_offset.fill(0);
    rows.word_id.fill(0);
    rows.word_kind.fill(0);
}

/// The library's call, into the rows as the job before left them.
fn library(job: &Handed, sides: &mut Sides) -> u32 {
    segment(job.library, lent(&mut sides.rows)).count
}

/// The library's call by a caller who clears all ten rows before it.
fn cleared(job: &Handed, sides: &mut Sides) -> u32 {
    clear(&mut sides.rows);
    library(job, sides)
}

/// The Rust, from clearing its lattice to the walk back.
fn rust(job: &Handed, sides: &mut Sides) -> u32 {
    sides.direct.run(&job.rust, job.matrix).count
}

/// The two sides must do the same work before their times mean anything. Hands back how many joints
/// they try.
pub fn agree(job: &Handed, sides: &mut Sides) -> usize {
    let due = sides.direct.run(&job.rust, job.matrix);
    let mut words = oracle::Rows::default();
    sides.direct.rows(&job.rust, &mut words);
    clear(&mut sides.rows);
    let answer = segment(job.library, lent(&mut sides.rows));
    assert_eq!([answer.number, due.number], [0; 2]);
    assert_eq!((answer.count, answer.cost), (due.count, due.cost));
    let (rows, count) = (&sides.rows, due.count as usize);
    assert!(rows.word_offset[..count] == words.word_offset);
    assert!(rows.word_id[..count] == words.word_id);
    assert!(rows.word_kind[..count] == words.word_kind);
    joints(&job.library, rows)
}

/// How many joints a job tries, by the rows it has left. In start order all that end at a
/// candidate's start have been met before it.
fn joints(given: &Given, rows: &Written) -> usize {
    // The start mark ends at 0.
    let mut ending = vec![0; rows.first.len()];
    ending[0] = 1;
    let mut joints = 0;
    for (k, (&start, &end)) in given.start.iter().zip(given.end).enumerate() {
        if rows.left[k + 1] != NONE {
            joints += ending[usize::from(start)];
            ending[usize::from(end)] += 1;
        }
    }
    joints + ending[ending.len() - 1]
}
