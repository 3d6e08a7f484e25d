//! The paper's examples A to M.

use jumelavorp::*;

use super::{candidate, ids, listed, plain, tokyo_to, FLAT, PENALTY, TOKYO_TO};

/// The words' ids and the cost, or the answer's number and place.
type Told = Result<(Vec<u32>, i32), (u32, Option<usize>)>;

fn told(job: Job<'_, '_>) -> Told {
    let mut rows = Rows::new();
    let answer = segment(&job, &mut rows);
    answer
        .map(|segmented| (ids(segmented), segmented.cost()))
        .map_err(|refusal| (refusal.number(), refusal.place()))
}

fn done(ids: &[u32], cost: i32) -> Told {
    Ok((ids.to_vec(), cost))
}

#[test]
fn a_empty_text() {
    let (none, mut rows) = (Candidates::new(), Rows::new());
    let matrix = Matrix {
        values: &[7],
        ..FLAT
    };
    let job = Job::new("", &none, matrix, Mode::Normal);
    let segmented = segment(&job, &mut rows).unwrap();
    assert_eq!((segmented.cost(), segmented.len()), (7, 0));
    assert!(segmented.is_empty());
    assert_eq!(segmented.words().next(), None);
    let lattice = segmented.lattice();
    assert_eq!(lattice.offset, [0]);
    assert_eq!(lattice.run, [0]);
    assert_eq!((lattice.left, lattice.cost), (&[NONE, 0][..], &[0, 7][..]));
    assert_eq!((lattice.first, lattice.last), (&[0][..], &[1][..]));
    assert_eq!(lattice.next, [1, NONE]);
    assert_eq!(lattice.ending_at(0).collect::<Vec<_>>(), [0, 1]);
    assert_eq!(lattice.furthest(), 0);
}

#[test]
fn b_with_words_and_lattice() {
    let (candidates, mut rows) = (tokyo_to(), Rows::new());
    let segmented = segment(&plain(TOKYO_TO, &candidates), &mut rows).unwrap();
    assert_eq!((segmented.cost(), segmented.len()), (220, 2));
    let words = [(1, 0..6, "東京"), (4, 6..9, "都")].map(|(id, range, text)| Word {
        id,
        kind: Kind::System,
        range,
        text,
    });
    assert!(segmented.words().eq(words.clone()));
    assert!(segmented.words().rev().eq(words.iter().rev().cloned()));
    assert!(segmented.into_iter().eq(&segmented));
    assert_eq!(segmented.words().len(), 2);
    assert_eq!(segmented.get(1).as_ref(), Some(&words[1]));
    assert_eq!(segmented.get(2), None);
    assert_eq!(segmented.get(usize::MAX), None);

    let lattice = segmented.lattice();
    assert_eq!(lattice.offset, [0, 3, 6, 9]);
    assert_eq!(lattice.run, [3, 2, 1, 0]);
    assert_eq!(lattice.first, [0, 1, 2, 4]);
    assert_eq!(lattice.last, [0, 1, 3, 6]);
    assert_eq!(lattice.left, [NONE, 0, 0, 1, 1, 2, 5]);
    assert_eq!(lattice.cost, [0, 300, 100, 500, 450, 220, 220]);
    assert_eq!(lattice.next, [NONE, NONE, 3, NONE, 5, 6, NONE]);
    assert_eq!(lattice.ending_at(3).collect::<Vec<_>>(), [4, 5, 6]);
    assert_eq!(lattice.ending_at(4).count(), 0);
    assert_eq!(lattice.furthest(), 3);
    let start_mark = Entry {
        left: None,
        cost: 0,
        next: None,
    };
    let first_candidate_of_two = Entry {
        left: Some(0),
        cost: 100,
        next: Some(3),
    };
    assert_eq!(lattice.entry(0), Some(start_mark));
    assert_eq!(lattice.entry(2), Some(first_candidate_of_two));
    assert_eq!(lattice.entry(7), None);
}

#[test]
fn b_on_bytes_and_on_lent_rows() {
    let candidates = tokyo_to();
    let bytes = TOKYO_TO.as_bytes();
    let job = Job::from_bytes(bytes, candidates.rows(), FLAT, Mode::Normal);
    let mut rows = Rows::new();
    let segmented = segment(&job, &mut rows).unwrap();
    let words: Vec<_> = segmented.words().map(|word| word.text).collect();
    assert_eq!(words, ["東京", "都"]);
}

#[test]
fn c_decompose() {
    let candidates = tokyo_to();
    let job = Job::new(TOKYO_TO, &candidates, FLAT, Mode::Decompose(PENALTY));
    assert_eq!(told(job), done(&[0, 2, 4], 620));
}

// Each of the four numbers counts where it should: for words of kanji alone, and for others.
#[test]
fn the_four_numbers_of_a_penalty() {
    let candidates = listed(&[(0, 2, 0), (2, 4, 0)]);
    for (text, charge) in [
        ("東京みや", 2 * 10 + 1000),
        ("東京都心", 40),
        ("みや東み", 2000),
    ] {
        let mode = Mode::Decompose(Penalty {
            kanji_threshold: 0,
            kanji_price: 10,
            other_threshold: 1,
            other_price: 1000,
        });
        let job = Job::new(text, &candidates, FLAT, mode);
        assert_eq!(told(job), done(&[0, 1], charge), "{text}");
    }
}

#[test]
fn d_the_first_of_equals() {
    let twins = listed(&[(0, 1, 5), (0, 1, 5)]);
    assert_eq!(told(plain("a", &twins)), done(&[0], 5));
}

#[test]
fn e_no_path() {
    let candidates = listed(&[(0, 1, 0)]);
    assert_eq!(told(plain("ab", &candidates)), Err((12, None)));
}

#[test]
fn f_and_g_spans() {
    for end in [0, 2] {
        let candidates = listed(&[(0, end, 0)]);
        assert_eq!(told(plain("a", &candidates)), Err((10, Some(0))));
    }
}

#[test]
fn h_a_candidate_not_reached() {
    let candidates = listed(&[(0, 2, 5), (1, 2, -32_768)]);
    let mut rows = Rows::new();
    let segmented = segment(&plain("ab", &candidates), &mut rows).unwrap();
    assert_eq!((ids(segmented), segmented.cost()), (vec![0], 5));
    assert_eq!(segmented.lattice().entry(2), None);
    assert_eq!(segmented.lattice().ending_at(1).count(), 0);
}

#[test]
fn i_entry_bytes() {
    for (high, cost) in [([0x00, 0x80], -32_768), ([0xFF, 0x7F], 32_767)] {
        let bytes = [1, 0, 0, 0, high[0], high[1], 0, 0, 0, 0];
        let entry = WordEntry::from_le_bytes(bytes);
        assert_eq!(entry, candidate(0, 1, 1, cost).entry);
        assert_eq!(entry.to_le_bytes(), bytes);
        let lent = CandidateRows {
            start: &[0],
            end: &[1],
            kind: &[0],
            extra: &[0],
            entry: &bytes,
        };
        let job = Job::new("a", lent, FLAT, Mode::Normal);
        assert_eq!(told(job), done(&[1], cost.into()));
    }
}

#[test]
fn every_field_of_a_candidate() {
    let one = Candidate {
        start: 0,
        end: 1,
        kind: Kind::Unknown,
        extra: -7,
        entry: WordEntry {
            id: 0xFEDC_BA98,
            cost: 100,
            left_id: 1,
            right_id: 2,
        },
    };
    let candidates = Candidates::from_iter([one]);
    assert_eq!(candidates.get(0), Some(one));
    assert_eq!(candidates.get(1), None);
    // Start to word, row 1 and place 0: 1,000. Word to end, row 0 and place 2: 20,000.
    let matrix = Matrix {
        height: 2,
        width: 3,
        values: &[1, 2, 20_000, 1_000, 3, 4],
    };
    let mut rows = Rows::new();
    let job = Job::new("a", &candidates, matrix, Mode::Normal);
    let segmented = segment(&job, &mut rows).unwrap();
    assert_eq!(segmented.cost(), 1_000 + 100 - 7 + 20_000);
    let word = segmented.get(0).unwrap();
    assert_eq!((word.id, word.kind), (0xFEDC_BA98, Kind::Unknown));
}

#[test]
fn j_the_matrix_lies_as_the_paper_says() {
    let matrix = Matrix {
        height: 2,
        width: 2,
        values: &[0, 5, 9, 0],
    };
    for (left_id, right_id, cost) in [(1, 0, 9), (0, 1, 5)] {
        let mut one = candidate(0, 1, 0, 0);
        one.entry.left_id = left_id;
        one.entry.right_id = right_id;
        let candidates = Candidates::from_iter([one]);
        let job = Job::new("a", &candidates, matrix, Mode::Normal);
        assert_eq!(told(job), done(&[0], cost));
    }
}

#[test]
fn k_limits() {
    let matrix = Matrix {
        height: 3,
        width: 1,
        values: &[0; 3],
    };
    for (left_id, expected) in [(2, done(&[0], 0)), (3, Err((11, Some(0))))] {
        let mut one = candidate(0, 1, 0, 0);
        one.entry.left_id = left_id;
        let candidates = Candidates::from_iter([one]);
        let job = Job::new("a", &candidates, matrix, Mode::Normal);
        assert_eq!(told(job), expected);
    }

    let candidates = listed(&[(0, 4_096, 1)]);
    let letters = "a".repeat(4_097);
    assert_eq!(told(plain(&letters[1..], &candidates)), done(&[0], 1));
    assert_eq!(told(plain(&letters, &candidates)), Err((2, None)));

    let candidates = listed(&[(0, 2, 0)]);
    for (kanji_price, expected) in [(32_767, done(&[0], 32_767)), (32_768, Err((6, None)))] {
        let mode = Mode::Decompose(Penalty {
            kanji_price,
            ..PENALTY
        });
        let job = Job::new("東京", &candidates, FLAT, mode);
        assert_eq!(told(job), expected);
    }
}

#[test]
fn l_texts() {
    let (none, mut rows) = (Candidates::new(), Rows::new());
    for (text, offset) in [(b"\xED\xA0\x80", 0), (b"A\xC0\x80", 1)] {
        let job = Job::from_bytes(text, &none, FLAT, Mode::Normal);
        assert_eq!(told(job), Err((1, Some(offset))));
        let refusal = characters(text, &mut rows).unwrap_err();
        assert_eq!(refusal, Refusal::NotUtf8 { offset });
    }
    let found = characters(b"\xF4\x8F\xBF\xBF", &mut rows).unwrap();
    assert_eq!((found.len(), found.is_empty()), (1, false));
    assert_eq!((found.offset, found.run), (&[0, 4][..], &[0, 0][..]));
}

#[test]
fn m_bad_text_comes_before_uneven_rows() {
    let lent = CandidateRows {
        start: &[0],
        end: &[],
        kind: &[],
        extra: &[],
        entry: &[],
    };
    let job = Job::from_bytes(b"\x80", lent, FLAT, Mode::Normal);
    assert_eq!(told(job), Err((1, Some(0))));
    let job = Job::new("a", lent, FLAT, Mode::Normal);
    assert_eq!(told(job), Err((3, None)));
}

#[test]
fn the_character_table_alone() {
    let mut rows = Rows::with_room(4, 0);
    let found = characters("東京へ", &mut rows).unwrap();
    let all: Vec<_> = found.iter().map(|one| (one.range, one.run)).collect();
    assert_eq!(all, [(0..3, 2), (3..6, 1), (6..9, 0)]);
    assert_eq!(found.iter().len(), found.len());
    assert!(found
        .iter()
        .enumerate()
        .all(|(i, one)| found.get(i) == Some(one)));
    assert_eq!((found.get(3), found.get(usize::MAX)), (None, None));
    assert!(characters("", &mut rows).unwrap().is_empty());
    assert!(characters(String::from("abcd"), &mut rows).is_ok());
    assert_eq!(
        characters("abcde", &mut rows).unwrap_err(),
        Refusal::RowsTooSmall
    );
}

// The candidates' numbers of a job's words, from the links of its lattice.
#[test]
fn the_walk_back_alone() {
    let (candidates, mut rows) = (tokyo_to(), Rows::new());
    let segmented = segment(&plain(TOKYO_TO, &candidates), &mut rows).unwrap();
    let CandidateRows { start, end, .. } = candidates.rows();
    let mut word = [999; 4];
    let found = walk_back(start, end, segmented.lattice().left, 3, &mut word);
    assert_eq!(found, Ok(&[1, 4][..]));
    assert_eq!(word, [1, 4, 999, 999]);
    assert_eq!(walk_back(&[], &[], &[NONE, 0], 0, &mut []), Ok(&[][..]));
}
