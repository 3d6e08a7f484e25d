//! Document 01's examples, and the job of docs/DIFFERENCES.md.

use crate::{fills, gives, refused};
use harness::check::segment::Check;
use harness::jobs::{Candidate, Job};
use harness::library::Answer;
use harness::model::segment::Written;
use harness::model::NONE;

// A, B and C with every row.
#[test]
fn a_b_and_c() {
    let mut check = Check::new(80);
    let a = Written {
        offset: vec![0],
        run: vec![0],
        first: vec![0],
        last: vec![1],
        left: vec![NONE, 0],
        cost: vec![0, 7],
        next: vec![1, NONE],
        ..Written::default()
    };
    let empty = Job::new(b"").matrix(1, 1, &[7]);
    fills(&mut check, &empty, Answer::done(0, 7), &a);

    let of_b = Written {
        offset: vec![0, 3, 6, 9],
        run: vec![3, 2, 1, 0],
        first: vec![0, 1, 2, 4],
        last: vec![0, 1, 3, 6],
        left: vec![NONE, 0, 0, 1, 1, 2, 5],
        cost: vec![0, 300, 100, 500, 450, 220, 220],
        next: vec![NONE, NONE, 3, NONE, 5, 6, NONE],
        word_offset: vec![0, 6],
        word_id: vec![1_001, 1_004],
        word_kind: vec![0, 0],
    };
    fills(&mut check, &Job::example_b(), Answer::done(2, 220), &of_b);

    let of_c = Written {
        left: vec![NONE, 0, 0, 1, 1, 3, 5],
        cost: vec![0, 300, 100, 500, 450, 620, 620],
        word_offset: vec![0, 3, 6],
        word_id: vec![1_000, 1_002, 1_004],
        word_kind: vec![0, 0, 0],
        ..of_b
    };
    let c = Job::example_b().decompose([1, 500, 7, 0]);
    fills(&mut check, &c, Answer::done(3, 620), &of_c);
    assert_eq!(check.cases(), 3);
}

// B with each kind and with ids of four different bytes.
#[test]
fn kinds_and_ids_of_the_words() {
    let mut check = Check::new(81);
    let mut job = Job::example_b();
    job.kind = vec![1, 2, 0, 1, 1];
    let ids = [0xFFFF_FFFF, 0x0102_0304, 0, 0x8000_0000, 0xF0E1_D2C3_u32];
    for (k, id) in ids.into_iter().enumerate() {
        job.entry[10 * k..10 * k + 4].copy_from_slice(&id.to_le_bytes());
    }
    gives(&mut check, &job, 220, &[1, 4]);
    assert_eq!(check.written().word_id[..2], [0x0102_0304, 0xF0E1_D2C3]);
    assert_eq!(check.written().word_kind[..2], [2, 1]);
    assert_eq!(check.cases(), 1);
}

// B with extras: dearer, the word (0,2) no longer wins; cheaper, it wins by more.
#[test]
fn extras() {
    let mut check = Check::new(79);
    let with = |extra| {
        let mut job = Job::example_b();
        job.extra[1] = extra;
        job
    };
    gives(&mut check, &with(229), 449, &[1, 4]);
    gives(&mut check, &with(230), 450, &[0, 3]);
    gives(&mut check, &with(231), 450, &[0, 3]);
    gives(&mut check, &with(-32_768), 220 - 32_768, &[1, 4]);
    assert_eq!(check.cases(), 4);
}

// D: of equals the first; also where the equals come later, and at the end mark.
#[test]
fn d_of_equals_the_first() {
    let mut check = Check::new(82);
    gives(&mut check, &Job::of(b"a", &[(0, 1, 4), (0, 1, 4)]), 4, &[0]);
    let three = [(0, 1, 5), (0, 1, 4), (0, 1, 4)];
    gives(&mut check, &Job::of(b"a", &three), 4, &[1]);
    let inner = [(0, 1, 2), (0, 1, 2), (1, 2, 3), (1, 2, 3)];
    gives(&mut check, &Job::of(b"ab", &inner), 5, &[0, 2]);
    // A word of two characters against two words, in both orders of their numbers.
    let longer_first = [(0, 2, 5), (0, 1, 2), (1, 2, 3)];
    gives(&mut check, &Job::of(b"ab", &longer_first), 5, &[0]);
    let longer_later = [(0, 1, 2), (0, 2, 5), (1, 2, 3)];
    gives(&mut check, &Job::of(b"ab", &longer_later), 5, &[1]);
    assert_eq!(check.cases(), 5);
}

// E and H with every row: what is not reached.
#[test]
fn e_and_h_not_reached() {
    let mut check = Check::new(83);
    let e = Written {
        offset: vec![0, 1, 2],
        run: vec![0, 0, 0],
        first: vec![0, 1, NONE],
        last: vec![0, 1, NONE],
        left: vec![NONE, 0, NONE],
        cost: vec![0, 8, 0],
        next: vec![NONE; 3],
        ..Written::default()
    };
    fills(&mut check, &Job::of(b"ab", &[(0, 1, 8)]), refused(12), &e);

    let h = Written {
        offset: vec![0, 1, 2],
        run: vec![0, 0, 0],
        first: vec![0, NONE, 1],
        last: vec![0, NONE, 3],
        left: vec![NONE, 0, NONE, 1],
        cost: vec![0, 5, 0, 5],
        next: vec![NONE, 3, NONE, NONE],
        word_offset: vec![0],
        word_id: vec![1_000],
        word_kind: vec![0],
    };
    let job = Job::of(b"ab", &[(0, 2, 5), (1, 2, -32_768)]);
    fills(&mut check, &job, Answer::done(1, 5), &h);
    assert_eq!(check.cases(), 2);
}

// F and G: spans that are no words. No candidate fits an empty text.
#[test]
fn f_and_g_bad_spans() {
    let mut check = Check::new(84);
    let bad = Answer::refused(10, 0);
    assert_eq!(check.job(&Job::of(b"a", &[(0, 0, 0)])), bad);
    assert_eq!(check.job(&Job::of(b"a", &[(0, 2, 0)])), bad);
    for span in [(0, 0, 0), (0, 1, 0), (1, 1, 0), (NONE, NONE, 0)] {
        assert_eq!(check.job(&Job::of(b"", &[span])), bad);
    }
    assert_eq!(check.seen(10), 6);
}

// I: an entry's bytes, through the job.
#[test]
fn i_entry_bytes() {
    let mut check = Check::new(85);
    for (low, high, cost) in [(0x00, 0x80, -32_768), (0xFF, 0x7F, 32_767)] {
        let mut job = Job::of(b"a", &[(0, 1, 0)]);
        job.entry = vec![1, 0, 0, 0, low, high, 0, 0, 0, 0];
        gives(&mut check, &job, cost, &[0]);
        assert_eq!(check.written().word_id[0], 1);
    }
    assert_eq!(check.cases(), 2);
}

// J: which id is the matrix's row, at the start mark, at the end mark and between two words.
#[test]
fn j_the_matrix_row() {
    let mut check = Check::new(86);
    let values = [0, 5, 9, 0];
    for (left_id, right_id, cost) in [(1, 0, 9), (0, 1, 5), (0, 0, 0), (1, 1, 14)] {
        let mut job = Job::new(b"a").matrix(2, 2, &values);
        job.push(Candidate {
            end: 1,
            left_id,
            right_id,
            ..Candidate::default()
        });
        gives(&mut check, &job, cost, &[0]);
    }
    // Two words joined at row 1, place 2 of 2 × 3: only there lies 40.
    let mut job = Job::of(b"ab", &[(0, 1, 0), (1, 2, 0)]).matrix(2, 3, &[1, 2, 3, 10, 20, 40]);
    job.set_right_id(0, 2);
    job.set_left_id(1, 1);
    gives(&mut check, &job, 1 + 40 + 1, &[0, 1]);
    assert_eq!(check.cases(), 5);
}

// K: left id and height, 4,096 letters, the price, each from both sides.
#[test]
fn k_both_sides() {
    let mut check = Check::new(87);
    let mut job = Job::of(b"a", &[(0, 1, 0)]).matrix(3, 1, &[0, 1, 2]);
    job.set_left_id(0, 2);
    gives(&mut check, &job, 2, &[0]);
    job.set_left_id(0, 3);
    assert_eq!(check.job(&job), Answer::refused(11, 0));

    let letters = Job::of(&[b'a'; 4_096], &[(0, 4_096, 6)]);
    gives(&mut check, &letters, 6, &[0]);
    let more = Job::of(&[b'a'; 4_097], &[(0, 4_096, 6)]);
    assert_eq!(check.job(&more), refused(2));

    let priced = |price| Job::of("東京都".as_bytes(), &[(0, 3, 0)]).decompose([1, price, 0, 0]);
    gives(&mut check, &priced(32_767), 2 * 32_767, &[0]);
    assert_eq!(check.job(&priced(32_768)), refused(6));
    assert_eq!(check.cases(), 6);
}

// L through the job, and M.
#[test]
fn l_and_m_bad_text() {
    let mut check = Check::new(88);
    let bad_at = |place| Answer::refused(1, place);
    assert_eq!(check.job(&Job::new(&[0xED, 0xA0, 0x80])), bad_at(0));
    assert_eq!(check.job(&Job::new(&[0x41, 0xC0, 0x80])), bad_at(1));
    let last = Job::of(&[0xF4, 0x8F, 0xBF, 0xBF], &[(0, 1, 3)]);
    gives(&mut check, &last, 3, &[0]);
    assert_eq!(check.written().offset[..2], [0, 4]);

    let mut m = Job::example_b();
    m.text.push(0x80);
    m.end.pop();
    assert_eq!(check.job(&m), bad_at(9));
    assert_eq!(check.cases(), 4);
}

// docs/DIFFERENCES.md 1: a word that is no kanji is charged above O, also below K.
#[test]
fn charged_between_the_thresholds() {
    let mut check = Check::new(89);
    let candidates = [(0, 1, 50), (0, 2, 0), (1, 2, 50)];
    let job = Job::of("アイ".as_bytes(), &candidates).decompose([2, 3_000, 1, 1_700]);
    gives(&mut check, &job, 100, &[0, 2]);
    // With K and O exchanged it goes free, and so do two kanji.
    let exchanged = Job::of("アイ".as_bytes(), &candidates).decompose([1, 3_000, 2, 1_700]);
    gives(&mut check, &exchanged, 0, &[1]);
    let kanji = Job::of("東京".as_bytes(), &candidates).decompose([2, 3_000, 1, 1_700]);
    gives(&mut check, &kanji, 0, &[1]);
    // One kanji and one other: not kanji only, whichever comes first.
    for text in ["東イ", "ア京"] {
        let mixed = Job::of(text.as_bytes(), &candidates).decompose([2, 3_000, 1, 1_700]);
        gives(&mut check, &mixed, 100, &[0, 2]);
    }
    assert_eq!(check.cases(), 5);
}
