//! Several faults at once: the first in the order of the tests wins.

use crate::asked;
use harness::check::in_halves;
use harness::check::segment::Check;
use harness::jobs::{Candidate, Job};
use harness::library::Answer;
use harness::model::NONE;

/// Something that document 01 refuses. Candidates and rows are numbered from 0.
#[derive(Clone, Copy, Debug)]
enum Fault {
    ManyBytes,
    BadByte,
    ManyCharacters,
    /// A candidate row with so many places more than its due; row 4 is the entry bytes.
    Uneven(usize, isize),
    ManyCandidates,
    Height(u32),
    Width(u32),
    /// So many values more than height × width.
    Values(isize),
    Mode(u32),
    /// In Decompose, one of the four numbers over its limit.
    Penalty(usize),
    /// A written row one place short.
    Short(usize),
    Kind(usize),
    Start(usize),
    End(usize, u16),
    LeftId(usize),
    RightId(usize),
    NoPath,
}

use Fault::*;

/// A job with faults, and what has to be known of it.
struct Faulty {
    job: Job,
    /// How many candidates there are, but for uneven rows.
    c: usize,
    /// How many places each written row lacks.
    lacking: [usize; 10],
    bad_byte: usize,
}

/// A job over 6 characters with a path and without a fault.
fn base() -> Faulty {
    let mut job = Job::new("東京都abc".as_bytes()).matrix(3, 2, &[1, 2, 3, 4, 5, 6]);
    for (start, end) in [(0, 2), (1, 3), (2, 4), (2, 5), (3, 5), (4, 6), (5, 6)] {
        job.push(candidate(start, end));
    }
    Faulty {
        c: job.candidates(),
        job,
        lacking: [0; 10],
        bad_byte: 0,
    }
}

fn candidate(start: u16, end: u16) -> Candidate {
    Candidate {
        start,
        end,
        left_id: 2,
        right_id: 1,
        ..Candidate::default()
    }
}

/// Each fault that is tried, in the order of the tests; 8 to 11 at the first candidate, at one
/// between and at the last, but 9 not at the first.
fn faults() -> Vec<Fault> {
    let mut all = vec![ManyBytes, BadByte, ManyCharacters];
    all.extend((0..5).flat_map(|row| [Uneven(row, -1), Uneven(row, 1)]));
    all.extend([Uneven(4, -10), Uneven(4, 10), ManyCandidates]);
    all.extend([0, 4, 65_536].map(Height));
    all.extend([0, 1, 65_536].map(Width));
    all.extend([Values(-1), Values(1), Mode(2), Mode(u32::MAX)]);
    all.extend((0..4).map(Penalty));
    all.extend((0..10).map(Short));
    for k in [0, 2, 6] {
        all.push(Kind(k));
        all.extend((k > 0).then_some(Start(k)));
        all.extend([End(k, 0), End(k, NONE), LeftId(k), RightId(k)]);
    }
    all.push(NoPath);
    all
}

impl Fault {
    fn put_into(self, faulty: &mut Faulty) {
        let Faulty { job, c, .. } = faulty;
        match self {
            ManyBytes => job.text.resize(16_385, b'a'),
            BadByte => {
                faulty.bad_byte = job.text.len();
                job.text.push(0xFF);
            }
            ManyCharacters => job.text.extend([b'a'; 4_097]),
            Uneven(row, more) => uneven(job, row, *c, more),
            ManyCandidates => {
                (*c..16_385).for_each(|_| job.push(candidate(5, 6)));
                *c = 16_385;
            }
            Height(height) => job.height = height,
            Width(width) => job.width = width,
            Values(more) => job.matrix.resize((6 + more) as usize, 0),
            Mode(mode) => job.mode = mode,
            Penalty(which) => {
                let mut numbers = [2, 100, 3, 200];
                numbers[which] = [65_536, 32_768][which % 2];
                *job = job.clone().decompose(numbers);
            }
            Short(row) => faulty.lacking[row] = 1,
            Kind(k) => job.kind[k] = 3,
            Start(k) => job.start[k] = job.start[k - 1] - 1,
            End(k, end) => job.end[k] = end,
            LeftId(k) => job.set_left_id(k, NONE),
            RightId(k) => job.set_right_id(k, NONE),
            NoPath => job.text.push(b'a'),
        }
    }

    fn answer(self, faulty: &Faulty) -> Answer {
        let (number, place) = match self {
            ManyBytes | ManyCharacters => (2, 0),
            BadByte => (1, faulty.bad_byte),
            Uneven(..) => (3, 0),
            ManyCandidates => (4, 0),
            Height(_) | Width(_) | Values(_) => (5, 0),
            Mode(_) | Penalty(_) => (6, 0),
            Short(_) => (7, 0),
            Kind(k) => (8, k),
            Start(k) => (9, k),
            End(k, _) => (10, k),
            LeftId(k) | RightId(k) => (11, k),
            NoPath => (12, 0),
        };
        Answer::refused(number, place)
    }
}

fn uneven(job: &mut Job, row: usize, c: usize, more: isize) {
    let places = |due: usize| (due as isize + more) as usize;
    match row {
        0 => job.start.resize(places(c), 5),
        1 => job.end.resize(places(c), 6),
        2 => job.kind.resize(places(c), 0),
        3 => job.extra.resize(places(c), 0),
        _ => job.entry.resize(places(10 * c), 0),
    }
}

/// The case with these faults, which are in the order of the tests. The last is put in first, so
/// that a size is still over its limit when everything is in.
fn first_wins(check: &mut Check, faults: &[Fault]) {
    let mut faulty = base();
    for fault in faults.iter().rev() {
        fault.put_into(&mut faulty);
    }
    let mut lengths = asked(&faulty.job);
    for (length, lacking) in lengths.iter_mut().zip(faulty.lacking) {
        *length -= lacking;
    }
    let answer = check.rows(&faulty.job, lengths);
    assert_eq!(answer, faults[0].answer(&faulty), "{faults:?}");
}

// Each fault alone, all pairs and all triples.
#[test]
fn the_first_of_several_faults_wins() {
    let all = faults();
    let halves = in_halves(|half| {
        let mut check = Check::new(90 + half as u64);
        for (i, &one) in all.iter().enumerate().skip(half).step_by(2) {
            first_wins(&mut check, &[one]);
            for (j, &two) in all.iter().enumerate().skip(i + 1) {
                first_wins(&mut check, &[one, two]);
                for &three in &all[j + 1..] {
                    first_wins(&mut check, &[one, two, three]);
                }
            }
        }
        assert!(half == 1 || check.job(&base().job).number == 0);
        [check.cases(), check.seen(0)]
    });
    let f = all.len() as u64;
    assert_eq!(f, 3 + 13 + 6 + 4 + 4 + 10 + 17 + 1);
    let each_pair_and_triple = f + f * (f - 1) / 2 + f * (f - 1) * (f - 2) / 6;
    let [cases, done] = [0, 1].map(|i| halves[0][i] + halves[1][i]);
    assert_eq!((cases, done), (each_pair_and_triple + 1, 1));
}

// 8 to 11 each at two candidates, in all combinations: the lower candidate wins whatever the
// numbers are. Two at one candidate: the lower number wins.
#[test]
fn candidate_by_candidate() {
    let mut check = Check::new(92);
    let at = |k| {
        [
            Kind(k),
            Start(k),
            End(k, 0),
            End(k, NONE),
            LeftId(k),
            RightId(k),
        ]
    };
    for (low, high) in [(2, 4), (2, 6), (4, 6), (5, 6)] {
        for (i, one) in at(low).into_iter().enumerate() {
            for other in at(high) {
                first_wins(&mut check, &[one, other]);
            }
            for other in &at(low)[i + 1..] {
                first_wins(&mut check, &[one, *other]);
            }
        }
    }
    assert_eq!(check.cases(), 4 * (6 * 6 + 15));
    assert!((8..=11).all(|number| check.seen(number) >= 20));
}

// 8 to 11 at high candidate numbers, up to the last of the most.
#[test]
fn high_candidate_numbers() {
    let mut check = Check::new(94);
    let even = Job::of(b"ab", &vec![(1, 2, 0); 16_384]);
    for k in [255, 256, 257, 4_096, 16_383] {
        for fault in [Kind(k), Start(k), End(k, 0), LeftId(k), RightId(k)] {
            let mut faulty = base();
            faulty.job = even.clone();
            fault.put_into(&mut faulty);
            assert_eq!(check.job(&faulty.job), fault.answer(&faulty));
        }
    }
    assert_eq!(check.cases(), 5 * 5);
}

// 9 is never given for the first candidate, whatever lies before its row, and never for equals.
#[test]
fn no_start_below_nothing() {
    let mut check = Check::new(93);
    for first in 0..=4 {
        for second in 0..=4 {
            let job = Job::of(b"abcde", &[(first, 5, 0), (second, 5, 0)]);
            let due = match (first, second) {
                _ if second < first => Answer::refused(9, 1),
                (0, _) => Answer::done(1, 0),
                _ => Answer::refused(12, 0),
            };
            assert_eq!(check.job(&job), due);
        }
    }
    assert_eq!((check.cases(), check.seen(9)), (25, 10));
}
