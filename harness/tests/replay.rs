//! The replay list, on every machine: what the Rust answered when it was recorded, the library answers too.

use harness::check::segment::Check;
use harness::differential::compare::Compare;
use harness::library::segment::segment;
use harness::replay::recorded::{self, records};
use harness::replay::{path, read, written, Record};
use std::io::Write;

fn list() -> Vec<u8> {
    std::fs::read(path()).expect("the list is there")
}

#[test]
fn as_the_recorder_writes_it() {
    match records() {
        Some(records) => assert!(written(&records) == list(), "record writes another list"),
        None => {
            let said =
                "not recorded again: the Rust's source is not there (LINDERA_SRC names its folder)";
            writeln!(std::io::stderr(), "{said}").expect("the message is written");
        }
    }
}

// The library gives just what is recorded, and leaves every other place as it was.
#[test]
fn every_record() {
    let mut compare = Compare::new(segment);
    let mut check = Check::new(180);
    let records = read(&list());
    let mut decompose = 0;
    for (i, Record { job, answer, rows }) in records.iter().enumerate() {
        for salt in 0..8 {
            let difference = compare.difference(job, *answer, rows, salt);
            assert_eq!(difference, None, "record {i}: {}", job.shown());
        }
        assert_eq!(check.job(job), *answer, "record {i}");
        decompose += job.mode;
    }
    let many = records.len() as u64;
    assert!(many >= 300 && check.cases() == many);
    let seen = [check.seen(0), check.seen(12), check.tied()];
    assert!(seen[0] >= 100 && seen[1] >= 50 && seen[2] >= 40, "{seen:?}");
    assert!(decompose >= 100 && u64::from(decompose) <= many - 100);
}

#[test]
fn sizes() {
    let list = list();
    assert!(list.len() < 160_000, "{}", list.len());
    let records = read(&list);
    assert!(written(&records) == list);
    let jobs = || records.iter().map(|record| &record.job);
    let most = |size: fn(&harness::jobs::Job) -> usize| jobs().map(size).max();
    assert_eq!(most(|job| job.text.len()), Some(recorded::MOST_BYTES));
    assert_eq!(
        most(|job| job.characters()),
        Some(recorded::MOST_CHARACTERS)
    );
    assert_eq!(
        most(|job| job.candidates()),
        Some(recorded::MOST_CANDIDATES)
    );
    assert_eq!(most(|job| job.matrix.len()), Some(recorded::MOST_JOINTS));
    for job in jobs() {
        let penalty = job.penalty;
        assert!(penalty.kanji_threshold <= penalty.other_threshold);
        assert!(job.mode == 1 || penalty == Default::default());
    }
    let small = jobs().filter(|job| job.candidates() <= 9).count();
    let middle = jobs().filter(|job| job.candidates() >= 24).count();
    assert!(small >= 250 && middle >= 24, "{small} {middle}");
}

/// The record with one place of one row, or one number of the answer, one more.
fn spoilt(record: &Record, place: usize) -> Vec<Record> {
    let mut all = Vec::new();
    macro_rules! row {
        ($($row:ident)*) => {
            $(let mut other = record.clone();
            if let Some(value) = other.rows.$row.get_mut(place) {
                *value = value.wrapping_add(1);
                all.push(other);
            })*
        };
    }
    row!(offset run first last left cost next word_offset word_id word_kind);
    let mut other = record.clone();
    other.answer.cost += 1;
    all.push(other);
    all
}

// A record that is wrong anywhere is found.
#[test]
fn spoilt_records() {
    let mut compare = Compare::new(segment);
    let records = read(&list());
    let small = records.iter().filter(|record| record.job.candidates() <= 9);
    let mut cases = 0;
    for record in small {
        for place in 0..12 {
            for Record { job, answer, rows } in spoilt(record, place) {
                let difference = compare.difference(&job, answer, &rows, cases);
                assert!(difference.is_some(), "{}", job.shown());
                cases += 1;
            }
        }
    }
    assert!(cases >= 10_000, "{cases}");
}
