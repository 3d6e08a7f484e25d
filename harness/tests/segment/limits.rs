//! Every answer number on each side of its limit.

use crate::{asked, gives, refused};
use harness::check::segment::Check;
use harness::jobs::{Candidate, Job};
use harness::library::Answer;
use harness::model::NONE;
use harness::texts::ILL_FORMED;

/// A text with one word over all of it.
fn one_word(text: &[u8], n: u16) -> Job {
    Job::of(text, &[(0, n, 9)])
}

// 2 by bytes and by characters. A candidate that fits 16 bits of n would pass otherwise.
#[test]
fn sizes_of_the_text() {
    let mut check = Check::new(100);
    for (last, bytes) in [("a", 16_381), ("é", 16_382), ("東", 16_383), ("𠀀", 16_384)] {
        let text = "\u{20000}".repeat(4_095) + last;
        assert_eq!(text.len(), bytes);
        gives(&mut check, &one_word(text.as_bytes(), 4_096), 9, &[0]);
    }
    for bytes in [16_385, 16_386, 65_536, 65_537, 131_072] {
        for byte in [b'a', 0xFF] {
            let job = one_word(&vec![byte; bytes], 1);
            assert_eq!(check.job(&job), refused(2));
        }
    }
    for letters in [4_095, 4_096] {
        let job = one_word(&vec![b'a'; letters], letters as u16);
        gives(&mut check, &job, 9, &[0]);
    }
    for letters in [4_097, 8_192, 16_383, 16_384] {
        let job = one_word(&vec![b'a'; letters], 1);
        assert_eq!(check.job(&job), refused(2));
    }
    // The whole text is read before its characters are counted.
    for good in [0, 1, 4_096, 4_097, 16_383] {
        let mut text = vec![b'a'; good];
        text.push(0xFF);
        assert_eq!(check.job(&one_word(&text, 1)), Answer::refused(1, good));
    }
    assert_eq!(check.cases(), 4 + 10 + 2 + 4 + 5);
}

// 1: each ill-formed sequence, and each character cut short at the text's end.
#[test]
fn bad_text() {
    let mut check = Check::new(99);
    for bad in ILL_FORMED {
        for behind in ["", "a", "東"] {
            let text = ["é東".as_bytes(), bad, behind.as_bytes()].concat();
            assert_eq!(check.job(&one_word(&text, 2)), Answer::refused(1, 5));
        }
    }
    for whole in ["é", "東", "\u{800}", "\u{D7FF}", "𠀀", "\u{10FFFF}"] {
        for kept in 1..whole.len() {
            // By turns of chance between guards of 80 and of BF.
            for _ in 0..16 {
                let text = ["é東".as_bytes(), &whole.as_bytes()[..kept]].concat();
                assert_eq!(check.job(&one_word(&text, 2)), Answer::refused(1, 5));
            }
        }
    }
    assert_eq!(check.seen(1), 3 * 16 + 16 * (1 + 3 * 2 + 2 * 3));
}

// 3: each candidate row one short and one long, and lengths that are equal in 16 bits; the entry
// bytes off by one and by ten.
#[test]
fn uneven_rows() {
    let mut check = Check::new(101);
    let mut cases = 0;
    for (c, due) in [(1, 0), (5, 0), (16_384, 0), (16_385, 4), (65_537, 4)] {
        let even = Job::of(b"a", &vec![(0, 1, 0); c]);
        assert_eq!(check.job(&even).number, due);
        for places in [0, c - 1, c + 1, c + 65_536] {
            for row in 0..5 {
                let mut job = even.clone();
                match row {
                    0 => job.start.resize(places, 0),
                    1 => job.end.resize(places, 1),
                    2 => job.kind.resize(places, 0),
                    3 => job.extra.resize(places, 0),
                    _ => job.entry.resize(10 * places, 0),
                }
                assert_eq!(check.job(&job), refused(3));
                cases += 1;
            }
        }
        for bytes in [
            10 * c - 9,
            10 * c - 1,
            10 * c + 1,
            10 * c + 9,
            10 * c + 65_536,
        ] {
            let mut job = even.clone();
            job.entry.resize(bytes, 0);
            assert_eq!(check.job(&job), refused(3));
            cases += 1;
        }
    }
    assert_eq!(cases, 5 * (4 * 5 + 5));
    assert_eq!((check.cases(), check.seen(3)), (5 + cases, cases));
}

// 4 from both sides, and numbers of candidates that are small in 16 bits.
#[test]
fn too_many_candidates() {
    let mut check = Check::new(102);
    for c in [16_383, 16_384] {
        let mut job = Job::of(b"ab", &vec![(0, 1, 0); c]);
        job.start[c - 1] = 1;
        job.end[c - 1] = 2;
        gives(&mut check, &job, 0, &[0, c - 1]);
        assert_eq!(check.written().left[c + 1], c as u16);
    }
    for c in [16_385, 32_768, 65_533, 65_535, 65_536, 65_537, 81_920] {
        let job = Job::of(b"a", &vec![(0, 1, 0); c]);
        assert_eq!(check.job(&job), refused(4));
    }
    assert_eq!((check.seen(0), check.seen(4)), (2, 7));
}

// 5: sizes 0, 1, 65,535 and 65,536, one value less and one more, and sizes whose product is small
// in a narrower number.
#[test]
fn sizes_of_the_matrix() {
    let mut check = Check::new(103);
    let sized = |height: u32, width: u32, values: usize| {
        let job = one_word(b"a", 1);
        job.matrix(height, width, &vec![0; values])
    };
    let within = [
        (1, 1),
        (1, 2),
        (2, 1),
        (3, 5),
        (1, 65_534),
        (1, 65_535),
        (65_534, 1),
        (65_535, 1),
        (65_535, 2),
        (256, 256),
        (257, 255),
        (300, 500),
    ];
    for (height, width) in within {
        let due = height as usize * width as usize;
        gives(&mut check, &sized(height, width, due), 9, &[0]);
        let narrow = due & 0xFFFF;
        for values in [due - 1, due + 1, 0, 1, narrow, due + 65_536] {
            if values != due {
                assert_eq!(check.job(&sized(height, width, values)), refused(5));
            }
        }
    }
    assert_eq!(check.seen(0), 12);
    let sizes = [0, 1, 2, 65_535, 65_536, 65_537, 131_072, 1 << 31, u32::MAX];
    for height in sizes {
        for width in sizes {
            let product = u128::from(height) * u128::from(width);
            let both = [height, width];
            let due = match both.iter().all(|size| (1..=65_535).contains(size)) {
                true => product,
                false => u128::MAX,
            };
            let narrow = [product as u16 as usize, product as u32 as usize, 0, 1, 2, 6];
            for values in narrow.into_iter().filter(|&values| values <= 200_000) {
                let given = check.job(&sized(height, width, values)).number;
                assert_eq!(given, if values as u128 == due { 0 } else { 5 });
            }
        }
    }
    assert_eq!(check.cases(), check.seen(0) + check.seen(5));
    assert!(check.seen(5) >= 400);
}

// 6: the mode's number, and in Decompose each of the four numbers; in Normal they are not looked at.
#[test]
fn modes_and_their_numbers() {
    let mut check = Check::new(104);
    for mode in [0, 1, 2, 3, 255, 256, 257, 65_536, 65_537, 1 << 31, u32::MAX] {
        let mut job = one_word(b"a", 1);
        job.mode = mode;
        let due = if mode <= 1 {
            Answer::done(1, 9)
        } else {
            refused(6)
        };
        assert_eq!(check.job(&job), due);
    }
    let numbers = [
        0,
        1,
        32_766,
        32_767,
        32_768,
        65_534,
        65_535,
        65_536,
        65_537,
        98_303,
        131_072,
        1 << 31,
        u32::MAX,
    ];
    for which in 0..4 {
        let most = [65_535, 32_767][which % 2];
        for number in numbers {
            let mut four = [1, 2, 3, 4];
            four[which] = number;
            let mut job = one_word("東京aaaa".as_bytes(), 6).decompose(four);
            let given = check.job(&job).number;
            assert_eq!(given, if number <= most { 0 } else { 6 });
            job.mode = 2;
            assert_eq!(check.job(&job), refused(6));
            job.mode = 0;
            gives(&mut check, &job, 9, &[0]);
        }
    }
    let mut all = one_word(b"a", 1).decompose([u32::MAX; 4]);
    assert_eq!(check.job(&all), refused(6));
    all.mode = 0;
    gives(&mut check, &all, 9, &[0]);
    assert_eq!(check.cases(), 11 + 4 * 13 * 3 + 2);
}

// 7: each row exactly long enough and one place short, much too short and longer, also by lengths
// that are small in 16 bits. A row that is short alone is enough, whatever the answer would be.
#[test]
fn lengths_of_the_rows() {
    let mut check = Check::new(105);
    let long: Vec<(u16, u16, i16)> = (0..4_096).map(|i| (i, i + 1, 0)).collect();
    let jobs = [
        (Job::new(b""), 0),
        (one_word(b"a", 1), 0),
        (one_word("東京都".as_bytes(), 3), 0),
        (Job::new(b"abc"), 12),
        (Job::of(b"abc", &[(0, 1, 0), (1, 2, 0)]), 12),
        (Job::of(&[b'a'; 4_096], &long), 0),
        (Job::of(b"ab", &vec![(0, 2, 0); 16_384]), 0),
    ];
    let mut cases = 0;
    for (job, number) in jobs {
        let asked = asked(&job);
        assert_eq!(check.rows(&job, asked).number, number);
        for row in 0..10 {
            for places in [
                0,
                1,
                asked[row].max(1) - 1,
                asked[row],
                asked[row] + 1,
                65_536,
            ] {
                let mut lengths = asked;
                lengths[row] = places;
                let due = if places < asked[row] { 7 } else { number };
                assert_eq!(check.rows(&job, lengths).number, due);
                // The others longer than they need to be.
                let mut roomy = asked.map(|places| places + 9);
                roomy[row] = places;
                assert_eq!(check.rows(&job, roomy).number, due);
                cases += 2;
            }
        }
        cases += 1;
    }
    assert_eq!((cases, check.cases()), (7 * 121, 7 * 121));
    assert!(check.seen(7) >= 300);
}

// 8: every kind there is, at several candidates.
#[test]
fn kinds() {
    let mut check = Check::new(106);
    for k in [0, 1, 4] {
        for kind in 0..=255 {
            let mut job = Job::of(b"a", &[(0, 1, 0); 5]);
            job.kind[k] = kind;
            let due = match kind {
                0..=2 => Answer::done(1, 0),
                _ => Answer::refused(8, k),
            };
            assert_eq!(check.job(&job), due);
        }
    }
    assert_eq!((check.seen(0), check.seen(8)), (9, 3 * 253));
}

// 9 and 10: every start and end around the neighbours, at several candidates.
#[test]
fn spans() {
    let mut check = Check::new(107);
    let positions = [0, 1, 2, 3, 4, 5, 6, 7, 255, 256, 32_768, 65_534, NONE];
    for k in [1, 3] {
        for start in positions {
            for end in positions {
                // Before it a candidate starts at 2, behind it none; n is 5.
                let mut job = Job::of(b"abcde", &[(0, 5, 0), (2, 3, 0), (2, 3, 0), (2, 5, 0)]);
                job.start.truncate(k + 1);
                job.end.truncate(k + 1);
                job.kind.truncate(k + 1);
                job.extra.truncate(k + 1);
                job.entry.truncate(10 * (k + 1));
                job.start[k] = start;
                job.end[k] = end;
                let least = if k == 1 { 0 } else { 2 };
                let due = match (start, end) {
                    _ if start < least => Answer::refused(9, k),
                    _ if end <= start || end > 5 => Answer::refused(10, k),
                    _ => Answer::done(1, 0),
                };
                assert_eq!(check.job(&job), due);
            }
        }
    }
    assert_eq!(check.cases(), 2 * 13 * 13);
    assert_eq!((check.seen(0), check.seen(9)), (15 + 6, 2 * 13));
}

// 11: ids at height and width and beside them, also the largest there are.
#[test]
fn ids() {
    let mut check = Check::new(108);
    for (height, width) in [
        (1, 1),
        (1, 4),
        (4, 1),
        (2, 3),
        (1, 65_535),
        (65_535, 1),
        (256, 255),
    ] {
        let ids = |size: u32| {
            [
                0,
                1,
                size - 1,
                size,
                size + 1,
                255,
                256,
                32_768,
                65_534,
                65_535,
            ]
        };
        for left_id in ids(height) {
            for right_id in ids(width) {
                for k in [0, 2] {
                    let mut job = Job::of(b"a", &[(0, 1, 0); 4]);
                    job = job.matrix(height, width, &vec![0; (height * width) as usize]);
                    job.set_left_id(k, left_id as u16);
                    job.set_right_id(k, right_id as u16);
                    let [left_id, right_id] = [left_id, right_id].map(|id| id & 0xFFFF);
                    let due = match left_id < height && right_id < width {
                        true => Answer::done(1, 0),
                        false => Answer::refused(11, k),
                    };
                    assert_eq!(check.job(&job), due);
                }
            }
        }
    }
    assert_eq!(check.cases(), 7 * 100 * 2);
    assert!(check.seen(0) >= 100 && check.seen(11) >= 500);
}

// Joints at the far ends of a wide, a high and a large matrix: only the value meant is not 0.
#[test]
fn far_ends_of_the_matrix() {
    let mut check = Check::new(109);
    for (height, width) in [
        (1, 65_535),
        (65_535, 1),
        (1_316, 1_316),
        (32_768, 3),
        (3, 32_769),
    ] {
        for (l, r) in [
            (0, 0),
            (0, width - 1),
            (height - 1, 0),
            (height - 1, width - 1),
        ] {
            let mut values = vec![0; (height * width) as usize];
            values[(l * width + r) as usize] = 77;
            let mut job = Job::of(b"ab", &[(0, 1, 0), (1, 2, 0)]);
            job = job.matrix(height, width, &values);
            job.set_right_id(0, r as u16);
            job.set_left_id(1, l as u16);
            // The marks' joints are both at 0, 0.
            let marks = if (l, r) == (0, 0) { 2 * 77 } else { 0 };
            gives(&mut check, &job, 77 + marks, &[0, 1]);
        }
    }
    assert_eq!(check.cases(), 5 * 4);
}

// 12 exactly where nothing reached ends at n: one word after the other taken out of a chain.
#[test]
fn no_path() {
    let mut check = Check::new(110);
    for n in [1, 2, 3, 40] {
        for missing in 0..=n {
            let mut job = Job::new(&vec![b'a'; n]);
            for start in (0..n).filter(|&start| start != missing) {
                job.push(Candidate {
                    start: start as u16,
                    end: start as u16 + 1,
                    ..Candidate::default()
                });
            }
            let due = if missing < n {
                refused(12)
            } else {
                Answer::done(n, 0)
            };
            assert_eq!(check.job(&job), due);
        }
    }
    assert_eq!((check.seen(0), check.seen(12)), (4, 46));
}
