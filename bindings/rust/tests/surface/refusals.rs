//! Every refusal, with its number, its place and its words.

use jumelavorp::*;

use super::{candidate, listed, plain, tokyo_to, FLAT, PENALTY, TOKYO_TO};

fn refused(job: Job<'_, '_>) -> Refusal {
    segment(&job, &mut Rows::new()).unwrap_err()
}

fn tells(refusal: Refusal, due: Refusal, number: u32, place: Option<usize>, words: &str) {
    assert_eq!(refusal, due);
    assert_eq!((refusal.number(), refusal.place()), (number, place));
    let error: Box<dyn std::error::Error> = refusal.into();
    assert_eq!(error.to_string(), words);
}

#[test]
fn by_the_text() {
    let none = Candidates::new();
    let job = Job::from_bytes(&TOKYO_TO.as_bytes()[..8], &none, FLAT, Mode::Normal);
    let due = Refusal::NotUtf8 { offset: 6 };
    tells(
        refused(job),
        due,
        1,
        Some(6),
        "the text is not UTF-8 from byte 6 on",
    );

    let words = "the text is too long: it may have at most 16384 bytes and 4096 characters";
    for text in ["a".repeat(4_097), "\u{1F3E0}".repeat(4_096) + "a"] {
        tells(
            refused(plain(&text, &none)),
            Refusal::TextTooLong,
            2,
            None,
            words,
        );
    }
}

#[test]
fn by_uneven_rows() {
    let (all, words) = (tokyo_to(), "the candidate rows are not of the same length");
    let rows = all.rows();
    for lent in [
        CandidateRows {
            start: &rows.start[1..],
            ..rows
        },
        CandidateRows {
            end: &rows.end[1..],
            ..rows
        },
        CandidateRows {
            kind: &rows.kind[1..],
            ..rows
        },
        CandidateRows {
            extra: &rows.extra[1..],
            ..rows
        },
        CandidateRows {
            entry: &rows.entry[1..],
            ..rows
        },
        CandidateRows { entry: &[], ..rows },
    ] {
        let job = Job::new(TOKYO_TO, lent, FLAT, Mode::Normal);
        tells(refused(job), Refusal::UnevenRows, 3, None, words);
    }
}

#[test]
fn by_too_many_candidates() {
    let words = "there are too many candidates: there may be at most 16384";
    let mut candidates: Candidates = (0..16_384).map(|id| candidate(0, 1, id, 0)).collect();
    assert!(segment(&plain("a", &candidates), &mut Rows::new()).is_ok());
    candidates.push(candidate(0, 1, 0, 0));
    tells(
        refused(plain("a", &candidates)),
        Refusal::TooManyCandidates,
        4,
        None,
        words,
    );
}

#[test]
fn by_the_matrix() {
    let words = "the matrix does not fit its sizes: height and width are 1 to 65535, \
                 and there are height times width values";
    let candidates = tokyo_to();
    for (height, width, values) in [
        (0, 1, &[0][..]),
        (1, 0, &[]),
        (1, 1, &[]),
        (2, 1, &[0]),
        (65_536, 1, &[0; 65_536]),
        (1, 65_536, &[0; 65_536]),
        (u32::MAX, u32::MAX, &[0]),
    ] {
        let matrix = Matrix {
            height,
            width,
            values,
        };
        let job = Job::new(TOKYO_TO, &candidates, matrix, Mode::Normal);
        tells(refused(job), Refusal::MatrixMisfit, 5, None, words);
    }
}

#[test]
fn by_the_penalty() {
    let words = "a penalty is too large: a price is at most 32767 and a threshold at most 65535";
    let candidates = tokyo_to();
    for penalty in [
        Penalty {
            kanji_threshold: 65_536,
            ..PENALTY
        },
        Penalty {
            kanji_price: 32_768,
            ..PENALTY
        },
        Penalty {
            other_threshold: u32::MAX,
            ..PENALTY
        },
        Penalty {
            other_price: 32_768,
            ..PENALTY
        },
    ] {
        let job = Job::new(TOKYO_TO, &candidates, FLAT, Mode::Decompose(penalty));
        tells(refused(job), Refusal::PenaltyTooLarge, 6, None, words);
    }
}

#[test]
fn by_small_rows() {
    let words = "the rows have too little room for this text and its candidates";
    let candidates = tokyo_to();
    for (characters, room) in [(2, 5), (3, 4), (0, 0)] {
        let mut rows = Rows::with_room(characters, room);
        let refusal = segment(&plain(TOKYO_TO, &candidates), &mut rows).unwrap_err();
        tells(refusal, Refusal::RowsTooSmall, 7, None, words);
    }
}

#[test]
fn by_a_candidate() {
    let candidates = tokyo_to();
    let kind = [0, 1, 2, 3, 4];
    let lent = CandidateRows {
        kind: &kind,
        ..candidates.rows()
    };
    let job = Job::new(TOKYO_TO, lent, FLAT, Mode::Normal);
    let words =
        "candidate 3 (counted from 0) has a kind other than 0 (system), 1 (user) and 2 (unknown)";
    tells(
        refused(job),
        Refusal::NoSuchKind { candidate: 3 },
        8,
        Some(3),
        words,
    );

    let candidates = listed(&[(0, 1, 0), (1, 2, 0), (0, 2, 0)]);
    let words = "candidate 2 (counted from 0) starts before the one ahead of it";
    let due = Refusal::OutOfOrder { candidate: 2 };
    tells(refused(plain("ab", &candidates)), due, 9, Some(2), words);

    let words =
        "candidate 1 (counted from 0) does not end after its start, or ends beyond the text";
    for end in [0, 1, 3, 65_535] {
        let candidates = listed(&[(0, 1, 0), (1, end, 0)]);
        let due = Refusal::BadSpan { candidate: 1 };
        tells(refused(plain("ab", &candidates)), due, 10, Some(1), words);
    }

    let words = "candidate 1 (counted from 0) has a left or right id outside the matrix";
    for (left_id, right_id) in [(1, 0), (0, 1), (65_535, 65_535)] {
        let mut candidates = listed(&[(0, 1, 0)]);
        let mut second = candidate(1, 2, 1, 0);
        second.entry.left_id = left_id;
        second.entry.right_id = right_id;
        candidates.push(second);
        let due = Refusal::IdOutsideMatrix { candidate: 1 };
        tells(refused(plain("ab", &candidates)), due, 11, Some(1), words);
    }
}

#[test]
fn by_no_path() {
    let (none, words) = (
        Candidates::new(),
        "no words of the list cover the whole text",
    );
    tells(refused(plain("a", &none)), Refusal::NoPath, 12, None, words);
}

#[test]
fn by_a_broken_link() {
    let words = "a link from a word to the one before it is broken";
    for link in [1, 2, NONE] {
        let refusal = walk_back(&[], &[], &[NONE, link], 1, &mut [0]).unwrap_err();
        tells(refusal, Refusal::BrokenLink, 13, None, words);
    }
}

#[test]
fn by_the_walk_backs_sizes() {
    let mut word = [0; 3];
    let mut number = |start: &[u16], end: &[u16], left: &[u16], n| {
        let refusal = walk_back(start, end, left, n, &mut word).unwrap_err();
        refusal.number()
    };
    let many = [0; 16_385];
    assert_eq!(number(&[], &[], &[NONE, 0], 65_536), 2);
    assert_eq!(number(&[0], &[], &[NONE, 0], 0), 3);
    assert_eq!(number(&many, &many, &[NONE, 0], 0), 4);
    assert_eq!(number(&[], &[], &[NONE], 0), 7);
    assert_eq!(number(&[], &[], &[NONE, 0], 4), 7);
}
