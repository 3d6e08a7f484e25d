//! Rows and lists that are used from call to call.

use jumelavorp::*;

use super::{candidate, ids, listed, plain, tokyo_to, FLAT, PENALTY, TOKYO_TO};

#[test]
fn rows_serve_after_a_refusal() {
    let (candidates, none, mut rows) = (tokyo_to(), Candidates::new(), Rows::with_room(3, 5));
    for _ in 0..3 {
        let job = Job::from_bytes(b"\xFF", &none, FLAT, Mode::Normal);
        assert_eq!(segment(&job, &mut rows).unwrap_err().number(), 1);
        let segmented = segment(&plain(TOKYO_TO, &candidates), &mut rows).unwrap();
        assert_eq!((ids(segmented), segmented.cost()), (vec![1, 4], 220));
        assert_eq!(
            segment(&plain("四文字だ", &none), &mut rows)
                .unwrap_err()
                .number(),
            7
        );
        let job = Job::new(TOKYO_TO, &candidates, FLAT, Mode::Decompose(PENALTY));
        let segmented = segment(&job, &mut rows).unwrap();
        assert_eq!((ids(segmented), segmented.cost()), (vec![0, 2, 4], 620));
        assert_eq!(
            segment(&plain("a", &none), &mut rows).unwrap_err().number(),
            12
        );
    }
}

// Rows that a refusal has left as they were are not shown: they are another call's.
#[test]
fn a_lattice_is_seen_only_after_its_own_call() {
    let (candidates, none, mut rows) = (tokyo_to(), Candidates::new(), Rows::new());
    assert!(rows.lattice().is_none());
    segment(&plain(TOKYO_TO, &candidates), &mut rows).unwrap();
    assert_eq!(rows.lattice().unwrap().first, [0, 1, 2, 4]);
    segment(&plain("a", &candidates), &mut rows).unwrap_err();
    assert!(rows.lattice().is_none());
    segment(&plain(TOKYO_TO, &candidates), &mut rows).unwrap();
    characters("a", &mut rows).unwrap();
    assert!(rows.lattice().is_none());

    let half = listed(&[(0, 1, 4), (2, 3, 5)]);
    assert_eq!(
        segment(&plain(TOKYO_TO, &half), &mut rows).unwrap_err(),
        Refusal::NoPath
    );
    let lattice = rows.lattice().unwrap();
    assert_eq!(lattice.left, [NONE, 0, NONE, NONE]);
    assert_eq!(lattice.cost, [0, 4, 0, 0]);
    assert_eq!(lattice.first, [0, 1, NONE, NONE]);
    assert_eq!((lattice.furthest(), lattice.entry(3)), (1, None));

    assert_eq!(
        segment(&plain(TOKYO_TO, &none), &mut rows).unwrap_err(),
        Refusal::NoPath
    );
    assert_eq!(rows.lattice().unwrap().furthest(), 0);
}

// The words' texts borrow the text alone: rows and lists are free for the next address.
#[test]
fn words_outlive_the_rows_and_the_lists() {
    fn cut<'a>(text: &'a str, candidates: &mut Candidates, rows: &mut Rows) -> Vec<&'a str> {
        candidates.clear();
        candidates.extend([candidate(0, 2, 0, 0), candidate(2, 3, 1, 0)]);
        let job = plain(text, candidates);
        let words = segment(&job, rows).unwrap().words();
        words.map(|word| word.text).collect()
    }
    let (mut candidates, mut rows) = (Candidates::new(), Rows::new());
    let first = cut(TOKYO_TO, &mut candidates, &mut rows);
    let second = cut("大阪府", &mut candidates, &mut rows);
    assert_eq!((first, second), (vec!["東京", "都"], vec!["大阪", "府"]));
}

#[test]
fn candidates_are_cleared_and_filled_again() {
    let (mut candidates, mut rows) = (Candidates::with_capacity(5), Rows::new());
    for cost in 0..3 {
        candidates.clear();
        assert!(candidates.is_empty());
        candidates.extend([candidate(0, 1, 8, 0), candidate(1, 3, 9, cost)]);
        assert_eq!(candidates.len(), 2);
        let segmented = segment(&plain(TOKYO_TO, &candidates), &mut rows).unwrap();
        assert_eq!(
            (ids(segmented), segmented.cost()),
            (vec![8, 9], cost.into())
        );
    }
}

#[test]
fn room_beyond_the_limits_is_not_made() {
    let candidates = tokyo_to();
    let mut rows = Rows::with_room(usize::MAX, usize::MAX);
    let segmented = segment(&plain(TOKYO_TO, &candidates), &mut rows).unwrap();
    assert_eq!(segmented.cost(), 220);
    assert_eq!(format!("{rows:?}"), format!("{:?}", Rows::default()));
    assert_eq!(
        format!("{rows:?}"),
        "Rows { characters: 4096, candidates: 16384, .. }"
    );
}

#[test]
fn the_largest_job() {
    let text = "\u{1F3E0}".repeat(4_096);
    let quarter = |at: u32| candidate((at / 4) as u16, (at / 4) as u16 + 1, at, (at % 4) as i16);
    let candidates: Candidates = (0..16_384).map(quarter).collect();
    let mut rows = Rows::new();
    let segmented = segment(&plain(&text, &candidates), &mut rows).unwrap();
    assert_eq!((segmented.len(), segmented.cost()), (4_096, 0));
    assert_eq!(segmented.words().next_back().unwrap().range, 16_380..16_384);
}

#[test]
fn what_is_shown_of_an_answer() {
    let (candidates, mut rows) = (listed(&[(0, 1, 5)]), Rows::new());
    let segmented = segment(&plain("a", &candidates), &mut rows).unwrap();
    assert_eq!(
        format!("{segmented:?}"),
        "Segmented { cost: 5, words: [Word { id: 0, kind: System, range: 0..1, text: \"a\" }], .. }"
    );
}

#[test]
fn rows_go_from_thread_to_thread() {
    fn goes<T: Send + Sync>() {}
    goes::<Rows>();
    goes::<Candidates>();
    goes::<Segmented<'_, '_>>();
    goes::<Refusal>();
}
