//! Segmenters that are wrong on purpose: each is found, and its failing job becomes small.

use crate::against;
use harness::differential::classes::Class;
use harness::differential::compare::Segmenter;
use harness::differential::shrink::{pasted, smallest};
use harness::jobs::{Candidate, Job};
use harness::library::segment::{segment, Given, Lent};
use harness::library::Answer;
use harness::model::segment::{entries, joint};
use harness::model::NONE;

/// The library, but the later of equal rivals wins.
fn later_rival(given: Given, mut rows: Lent) -> Answer {
    let answer = segment(given, reborrow(&mut rows));
    let text = String::from_utf8_lossy(given.text);
    let entries = entries(&given, &Vec::from_iter(text.chars()));
    for number in 1..entries.len() {
        let entry = &entries[number];
        let offer = |left: usize| {
            let earlier = &entries[left];
            i64::from(rows.cost[left]) + joint(&given, earlier, entry) + earlier.charge
        };
        let rivals = (0..entries.len()).filter(|&left| {
            let reached = left == 0 || rows.left[left] != NONE;
            left != number && reached && entries[left].end == entry.start
        });
        if let Some(left) = rivals.rev().min_by_key(|&left| offer(left)) {
            rows.left[number] = left as u16;
        }
    }
    answer
}

/// The library, but a cost that is one too much, of two words and more.
fn cost_off_by_one(given: Given, rows: Lent) -> Answer {
    let mut answer = segment(given, rows);
    answer.cost += i32::from(answer.count >= 2);
    answer
}

/// The library, but the last two candidates' lefts in each other's place.
fn lefts_swapped(given: Given, mut rows: Lent) -> Answer {
    let answer = segment(given, reborrow(&mut rows));
    let c = given.start.len();
    if c >= 2 {
        rows.left.swap(c - 1, c);
    }
    answer
}

/// The library, but it writes into the word place behind the last word.
fn unwritten_changed(given: Given, mut rows: Lent) -> Answer {
    let answer = segment(given, reborrow(&mut rows));
    if let Some(place) = rows.word_id.get_mut(answer.count as usize) {
        *place = 0;
    }
    answer
}

/// The library, but in Decompose with two candidates and more the end mark's stored cost is too low.
fn end_mark_too_low(given: Given, mut rows: Lent) -> Answer {
    let answer = segment(given, reborrow(&mut rows));
    if answer.number == 0 && given.mode == 1 && given.start.len() >= 2 {
        rows.cost[given.start.len() + 1] -= 1;
    }
    answer
}

fn reborrow<'a>(rows: &'a mut Lent<'_>) -> Lent<'a> {
    Lent {
        offset: rows.offset,
        run: rows.run,
        first: rows.first,
        last: rows.last,
        left: rows.left,
        cost: rows.cost,
        next: rows.next,
        word_offset: rows.word_offset,
        word_id: rows.word_id,
        word_kind: rows.word_kind,
    }
}

/// Wants the segmenter found wrong within so many jobs of a class, by a message with these words, and
/// the failing job shrunk to this one.
fn found(segmenter: Segmenter, (class, jobs): (Class, u64), message: &str, due: &Job) {
    let Some(mut differential) = against(segmenter, 174) else {
        return;
    };
    let mismatch = differential.jobs(class, jobs).expect("it is found");
    assert!(mismatch.difference.contains(message), "{mismatch}");
    assert_eq!(mismatch.smallest, *due, "{mismatch}");
    let tally = differential.tallies[class as usize];
    assert!(tally.jobs == jobs && tally.mismatches > 0, "{tally:?}");
    assert!(
        differential.jobs(class, jobs).is_none(),
        "the first one only"
    );
}

// Two equal words over one character, as in example D.
#[test]
fn a_later_rival() {
    let due = Job::of(b"a", &[(0, 1, 0), (0, 1, 0)]);
    found(later_rival, (Class::Ties, 500), "left row", &due);
}

#[test]
fn a_cost_off_by_one() {
    let due = Job::of(b"aa", &[(0, 1, 0), (1, 2, 0)]);
    found(cost_off_by_one, (Class::Scripts, 500), "the answer", &due);
    found(cost_off_by_one, (Class::Largest, 4), "the answer", &due);
}

#[test]
fn swapped_lefts() {
    let due = Job::of(b"aa", &[(0, 1, 0), (1, 2, 0)]);
    found(lefts_swapped, (Class::Any, 500), "left row", &due);
}

// This seed's rows have places to spare, so that no text at all is enough.
#[test]
fn an_unwritten_place_changed() {
    let due = Job::new(b"");
    found(unwritten_changed, (Class::Sparse, 500), "word id row", &due);
}

#[test]
fn an_end_mark_too_low() {
    let due = Job::of(b"a", &[(0, 1, 0), (0, 1, 0)]).decompose([0; 4]);
    found(end_mark_too_low, (Class::Lengths, 500), "cost row", &due);
}

// Every kind of number is lowered, and the domain is not left: O stays at K or above.
#[test]
fn shrunk_as_far_as_it_fails() {
    let mut job = Job::new("東京都a".as_bytes()).matrix(2, 3, &[5, -6, 7, 8, -9, 10]);
    for (start, end) in [(0, 2), (0, 3), (2, 3), (2, 4)] {
        job.push(Candidate {
            start,
            end,
            kind: 2,
            extra: -700,
            id: 77_000,
            cost: 800,
            left_id: 1,
            right_id: 2,
        });
    }
    let job = job.decompose([2, 30, 3, 40]);
    let mut tried = 0;
    let found = smallest(job, |job| {
        tried += 1;
        assert!(job.mode == 0 || job.penalty.kanji_threshold <= job.penalty.other_threshold);
        let long = |k| job.end[k] - job.start[k] >= 2 && job.candidate(k).cost >= 100;
        job.mode == 1 && job.penalty.kanji_threshold >= 1 && (0..job.candidates()).any(long)
    });
    assert_eq!(
        found,
        Job::of(b"aa", &[(0, 2, 100)]).decompose([1, 0, 1, 0])
    );
    assert!(tried >= 20, "{tried}");
}

// The printed code is the code below.
#[test]
fn printed_to_be_pasted() {
    let mut job = Job::new("東a\n".as_bytes()).matrix(1, 2, &[0, -1]);
    job = job.decompose([1, 2, 3, 4]);
    job.push(Candidate {
        start: 0,
        end: 3,
        kind: 2,
        extra: -5,
        id: 6,
        cost: 7,
        left_id: 0,
        right_id: 1,
    });
    let due = [
        r#"let mut job = Job::new("東a\n".as_bytes()).matrix(1, 2, &[0, -1]);"#,
        r#"job = job.decompose([1, 2, 3, 4]);"#,
        r#"job.push(Candidate { start: 0, end: 3, kind: 2, extra: -5, id: 6, cost: 7, left_id: 0, right_id: 1 });"#,
        "check.job(&job);\n",
    ];
    assert_eq!(pasted(&job), due.join("\n"));
}
