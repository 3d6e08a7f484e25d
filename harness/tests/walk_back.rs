//! The walk back alone. Every case compares the answer, all places of the word row, the three
//! rows that are only read and the guards around all four with the model; every test counts its
//! cases, so that none runs on nothing.

use harness::check::walk_back::Check;
use harness::check::{every, in_halves};
use harness::library::Answer;
use harness::model::{MOST_CANDIDATES, MOST_CHARACTERS};
use harness::random::Random;
use harness::walks::{self, Chain, Walk, NONE};

const BROKEN: u32 = 13;

fn done(count: usize) -> Answer {
    Answer::done(count, 0)
}

fn refused(number: u32) -> Answer {
    Answer::refused(number, 0)
}

/// Every entry number of c candidates, the first one that is none of them, and "none".
fn links(c: u16) -> Vec<u16> {
    (0..=c + 2).chain([NONE]).collect()
}

/// The case with words written out.
fn gives(check: &mut Check, walk: &Walk, words: &[u16]) {
    assert_eq!(check.walk(walk), done(words.len()), "{}", walk.shown());
    assert_eq!(&check.word()[..words.len()], words, "{}", walk.shown());
}

// Three candidates and n from 0 to 3: every start and end from 0 to n+1, and every followed link
// from 0 to c+2 or none. The link of entry 0 and the room behind n change from case to case.
#[test]
fn every_walk_over_three_candidates() {
    let values = links(3);
    let all_links = every(4, &values);
    let halves = in_halves(|half| {
        let mut check = Check::new(60 + half as u64);
        for n in 0..=3 {
            let positions: Vec<u16> = (0..=n + 1).collect();
            for spans in every(6, &positions).iter().skip(half).step_by(2) {
                let mut walk = Walk::new(&[], &[0; 5], n.into());
                walk.start.extend(&spans[..3]);
                walk.end.extend(&spans[3..]);
                for (i, followed) in all_links.iter().enumerate() {
                    walk.left[0] = values[i % 7];
                    walk.left[1..].copy_from_slice(followed);
                    check.rows(&walk, usize::from(n) + i % 3);
                }
            }
        }
        [check.cases(), check.seen(0)]
    });
    let [cases, right] = [0, 1].map(|i| halves[0][i] + halves[1][i]);
    let all_spans: u64 = (0..=3).map(|n: u64| (n + 2).pow(6)).sum();
    assert_eq!(cases, all_spans * 7_u64.pow(4));
    // The right ones counted by hand: ways to cut n into words, choices of their candidates, and
    // what may stand in the spans and links that are not met.
    let spare = |spans: u64, links: u32| spans * 7_u64.pow(links);
    let by_hand = [
        spare(2_u64.pow(6), 3),
        3 * spare(3_u64.pow(4), 2),
        3 * spare(4_u64.pow(4), 2) + 6 * spare(4_u64.pow(2), 1),
        3 * spare(5_u64.pow(4), 2) + 2 * 6 * spare(5_u64.pow(2), 1) + 6,
    ];
    assert_eq!(right, by_hand.iter().sum());
}

// Up to two candidates and n from 0 to 3: every start and end from 0 to 4 or 65,535, every
// followed link from 0 to c+2 or none, left rows from c+1 to c+3 places, word rows from one place
// too few to one more than n. Three links of entry 0 for each: they change nothing.
#[test]
fn every_walk_over_fewer_candidates() {
    let mut check = Check::new(62);
    let mut expected_cases = 0;
    for c in 0..=2 {
        let all_links = every(c + 1, &links(c as u16));
        let all_spans = every(2 * c, &[0, 1, 2, 3, 4, NONE]);
        for n in 0..=3 {
            // With n = 0 no word row is too short.
            let rooms = usize::saturating_sub(n, 1)..=n + 1;
            let lengths = c + 1..=c + 3;
            let both = rooms.clone().count() * lengths.clone().count();
            expected_cases += 3 * all_links.len() * all_spans.len() * both;
            for spans in &all_spans {
                let mut walk = Walk::new(&[], &[], n as u32);
                walk.start.extend(&spans[..c]);
                walk.end.extend(&spans[c..]);
                for followed in &all_links {
                    for length in lengths.clone() {
                        for room in rooms.clone() {
                            unread_link(&mut check, &mut walk, followed, length, room);
                        }
                    }
                }
            }
        }
    }
    assert_eq!(check.cases(), expected_cases as u64);
    assert!([0, 7, 13]
        .iter()
        .all(|&number| check.seen(number) >= 100_000));
}

/// The same case with three links of entry 0: the answer and the words stay the same.
fn unread_link(check: &mut Check, walk: &mut Walk, followed: &[u16], length: usize, room: usize) {
    let mut first = None;
    for unread in [0, 1, NONE] {
        walk.left.clear();
        walk.left.push(unread);
        walk.left.extend(followed);
        walk.left.resize(length, 1);
        let answer = check.rows(walk, room);
        let words = check.word()[..answer.count as usize].to_vec();
        let same = first.get_or_insert((answer, words.clone()));
        assert_eq!(*same, (answer, words));
    }
}

/// A right walk of three words, or fewer where there is no room for them.
fn ready(random: &mut Random, n: usize, c: usize) -> Chain {
    walks::right(random, n, c, n.min(c).min(3))
}

// Document 01's examples as far as a walk back goes, with the words written out.
#[test]
fn examples() {
    let mut check = Check::new(63);
    let b = [(0, 1), (0, 2), (1, 2), (1, 3), (2, 3)];
    let example = |left: &[u16]| Walk::new(&b, left, 3);
    gives(&mut check, &Walk::new(&[], &[NONE, 0], 0), &[]);
    gives(&mut check, &example(&[NONE, 0, 0, 1, 1, 2, 5]), &[1, 4]);
    gives(&mut check, &example(&[NONE, 0, 0, 1, 1, 3, 5]), &[0, 2, 4]);
    gives(&mut check, &example(&[NONE, 0, 0, 1, 1, 3, 4]), &[0, 3]);
    let d = Walk::new(&[(0, 1); 2], &[NONE, 0, 0, 1], 1);
    gives(&mut check, &d, &[0]);
    let h = Walk::new(&[(0, 2), (1, 2)], &[NONE, 0, NONE, 1], 2);
    gives(&mut check, &h, &[0]);
    // Numbers that rise along the walk, and bad candidates that it does not meet.
    let spans = [(2, 3), (0, 1), (1, 2), (7, 7), (3, 1), (NONE, 0)];
    let rising = Walk::new(&spans, &[0, 3, 0, 2, 4, 9, NONE, 1], 3);
    gives(&mut check, &rising, &[1, 2, 0]);
    let e = Walk::new(&[(0, 1)], &[NONE, 0, NONE], 2);
    assert_eq!(check.walk(&e), refused(BROKEN));
    assert_eq!((check.seen(0), check.seen(13)), (7, 1));
}

// 2 from both sides; each n over the limit has rows that are right for its lower 16 bits.
#[test]
fn too_many_characters() {
    let mut check = Check::new(64);
    let mut random = Random::new(64);
    for n in [4_095, 4_096] {
        let chain = ready(&mut random, n, 5);
        gives(&mut check, &chain.walk, &chain.words);
    }
    let beside = [4_097, 4_098, 65_535, 65_536, 65_539, 69_632, 131_075];
    for over in beside.into_iter().chain([1 << 31, u32::MAX]) {
        let mut walk = ready(&mut random, usize::from(over as u16), 5).walk;
        walk.n = over;
        for room in [0, 3, 4_096, 4_097, 70_000] {
            assert_eq!(check.rows(&walk, room), refused(2));
        }
    }
    assert_eq!((check.seen(0), check.seen(2)), (2, 9 * 5));
}

// 3 each way, also with lengths that are equal in 16 bits, and before 4 and 7.
#[test]
fn uneven_rows() {
    let mut check = Check::new(65);
    let mut random = Random::new(65);
    for c in [3, 200, 16_383, 16_384, 16_385] {
        let even = ready(&mut random, 30, c).walk;
        let due = if c > 16_384 { refused(4) } else { done(3) };
        assert_eq!(check.walk(&even), due);
        for other in [0, c - 1, c + 1, c + 2, c + 65_536] {
            let mut uneven = even.clone();
            uneven.end.resize(other, 30);
            assert_eq!(check.walk(&uneven), refused(3));
            std::mem::swap(&mut uneven.start, &mut uneven.end);
            assert_eq!(check.walk(&uneven), refused(3));
            uneven.left.resize(other + 2, 0);
            assert_eq!(check.walk(&uneven), refused(3));
        }
    }
    assert_eq!((check.seen(0), check.seen(3)), (4, 5 * 5 * 3));
}

// 4 from both sides, up to numbers of candidates that are small in 16 bits. Within the limit the
// highest number and the lowest are words, each before the other.
#[test]
fn too_many_candidates() {
    let mut check = Check::new(66);
    let mut random = Random::new(66);
    for c in [16_383, 16_384] {
        for words in [[0, c - 1], [c - 1, 0]] {
            let mut walk = walks::wild(&mut random, 2, c);
            let mut entry = 0;
            for (position, word) in words.into_iter().enumerate() {
                walk.start[word] = position as u16;
                walk.end[word] = position as u16 + 1;
                walk.left[word + 1] = entry;
                entry = word as u16 + 1;
            }
            walk.left[c + 1] = entry;
            gives(&mut check, &walk, &words.map(|word| word as u16));
        }
    }
    let beside = [16_385, 16_386, 32_768];
    for c in beside.into_iter().chain(65_533..=65_540) {
        let mut over = ready(&mut random, 3, 3).walk;
        over.start.resize(c, 0);
        over.end.resize(c, 3);
        over.left.resize(c + 2, 0);
        assert_eq!(check.walk(&over), refused(4));
    }
    assert_eq!((check.seen(0), check.seen(4)), (4, 3 + 8));
}

// 7 from both sides, up to lengths that are small in 16 bits; places beyond c+2 are not read.
#[test]
fn lengths_of_the_rows() {
    let mut check = Check::new(67);
    let mut random = Random::new(67);
    for (n, c) in [(0, 0), (0, 1), (1, 1), (3, 3), (300, 200), (4_096, 16_384)] {
        let chain = ready(&mut random, n, c);
        let count = chain.words.len();
        let rooms = [0, count, n.max(1) - 1, n, n + 1, n + 500, 65_536, 70_000];
        for length in [0, 1, c, c + 1, c + 2, c + 3, c + 500, 65_536, 65_536 + c] {
            for room in rooms {
                let mut walk = chain.walk.clone();
                walk.left.resize(length, random.below(c + 2) as u16);
                let short = length < c + 2 || room < n;
                let due = if short { refused(7) } else { done(count) };
                assert_eq!(check.rows(&walk, room), due);
                if !short {
                    assert_eq!(&check.word()[..count], chain.words);
                }
            }
        }
    }
    assert_eq!(check.cases(), 6 * 9 * 8);
    assert!(check.seen(0) >= 100 && check.seen(7) >= 100);
}

// Every mixture of faults: the first in the order of the tests wins.
#[test]
fn order_of_the_tests() {
    let mut check = Check::new(68);
    let mut random = Random::new(68);
    // How often a fault came by itself.
    let mut alone = [0; 14];
    let within = [(4_096, 16_384), (4_097, 16_384)];
    let beyond = within.map(|(n, c)| (n, c + 1));
    for (n, c) in within.into_iter().chain(beyond) {
        let chain = ready(&mut random, n, c);
        for [start_less, end_less, left_more, word_more, broken] in mixtures() {
            let mut walk = chain.walk.clone();
            walk.left[c + 1] = if broken == 1 { NONE } else { walk.left[c + 1] };
            walk.start.truncate(c - start_less);
            walk.end.truncate(c - end_less);
            // The left row's length is judged by c, which is the start row's length.
            walk.left.resize(c - start_less + 1 + left_more, 0);
            let faults = [
                (n > 4_096, 2),
                (start_less != end_less, 3),
                (c > 16_384, 4),
                (left_more == 0 || word_more == 0, 7),
                (broken == 1, BROKEN),
            ];
            let due: Vec<u32> = faults.iter().filter(|f| f.0).map(|f| f.1).collect();
            let number = check.rows(&walk, n - 1 + word_more).number;
            assert_eq!(number, due.first().copied().unwrap_or(0));
            alone[number as usize] += u32::from(due.len() < 2);
        }
    }
    assert_eq!(check.cases(), 4 * 3 * 9 * 2);
    assert!([0, 2, 3, 4, 7, 13].iter().all(|&number| alone[number] > 0));
}

/// Places missing from the start and end rows, places beside one too few of the left and word
/// rows, and whether the first link is broken.
fn mixtures() -> Vec<[usize; 5]> {
    let mut all = Vec::new();
    for [start_less, end_less] in [[0, 0], [1, 0], [0, 1]] {
        for more in 0..9 {
            for broken in [0, 1] {
                all.push([start_less, end_less, more % 3, more / 3, broken]);
            }
        }
    }
    all
}

// No characters: no words, whatever the candidates; a link to one of them is broken.
#[test]
fn empty_text() {
    let mut check = Check::new(69);
    for c in [0, 1, 2, 300, 16_384] {
        for span in [(0, 0), (0, 1), (1, 0), (NONE, 0), (NONE, NONE)] {
            let mut walk = Walk::new(&vec![span; c], &vec![0; c + 2], 0);
            for room in [0, 1, 5] {
                assert_eq!(check.rows(&walk, room), done(0));
            }
            for link in [1, c as u16, c as u16 + 1, c as u16 + 2, NONE] {
                walk.left[c + 1] = link;
                let due = if link == 0 { done(0) } else { refused(BROKEN) };
                assert_eq!(check.rows(&walk, 0), due);
            }
        }
    }
    assert_eq!(check.cases(), 5 * 5 * (3 + 5));
}

/// Sizes of a walk: n, c and words, at the limits, near them or small.
fn sizes(random: &mut Random) -> (usize, usize, usize) {
    let n = match random.below(4) {
        0 => MOST_CHARACTERS - random.below(2),
        1 => random.below(MOST_CHARACTERS + 1),
        2 => random.below(200),
        _ => random.below(6),
    };
    let some = n.min(1 + random.below(n.max(1)));
    let words = random.one_of(&[n, some, some, some]);
    let c = match random.below(4) {
        0 => MOST_CANDIDATES - random.below(2),
        1 => words,
        2 => words + random.below(10),
        _ => words + random.below(MOST_CANDIDATES - words + 1),
    };
    (n, c, words)
}

// Random right walks, with the words known beforehand, in exact and in longer rows; and the same
// broken at one link, most of them after many right ones.
#[test]
fn random_right_and_broken_walks() {
    let mut check = Check::new(70);
    let mut random = Random::new(70);
    let mut deep = 0;
    for _ in 0..1_500 {
        let (n, c, words) = sizes(&mut random);
        let mut chain = walks::right(&mut random, n, c, words);
        assert_eq!(check.rows(&chain.walk, n), done(words));
        assert_eq!(&check.word()[..words], &chain.words[..]);
        let unread = random.below(3) * random.below(50);
        chain.walk.left.resize(c + 2 + unread, NONE);
        gives(&mut check, &chain.walk, &chain.words);

        for links in [0, words, random.below(words + 1), random.below(words + 1)] {
            let broken = chain.broken_after(&mut random, links);
            assert_eq!(check.walk(&broken), refused(BROKEN), "after {links} links");
            deep += u32::from(links >= 100);
        }
    }
    assert_eq!((check.seen(0), check.seen(13)), (2 * 1_500, 4 * 1_500));
    assert!(deep >= 1_500);
}

// Random walks that are led back to where they have been, or into a circle of no characters.
#[test]
fn random_circles() {
    let mut check = Check::new(71);
    let mut random = Random::new(71);
    let mut circles = 0;
    for _ in 0..1_500 {
        let (n, c, words) = sizes(&mut random);
        let chain = walks::right(&mut random, n, c, words);
        let links = random.below(words + 1);
        if links > 0 {
            let walk = chain.turned_back_after(&mut random, links);
            assert_eq!(check.walk(&walk), refused(BROKEN));
        }
        if let Some(walk) = chain.circle_after(&mut random, links) {
            assert_eq!(check.walk(&walk), refused(BROKEN));
            circles += 1;
        }
    }
    assert!(circles >= 800 && check.cases() - circles >= 800);
}

// Rows of any numbers, rows of numbers near the right ones, and rows whose links nearly all fit.
#[test]
fn random_rows() {
    let mut check = Check::new(72);
    let mut random = Random::new(72);
    let (mut words, mut longest) = (0, 0);
    for _ in 0..2_000 {
        let (n, c, _) = sizes(&mut random);
        check.walk(&walks::wild(&mut random, n, c));
        check.walk(&walks::anything(&mut random, n, c));
        let few = random.below(4);
        check.walk(&walks::anything(&mut random, few, c));
    }
    assert!(check.seen(13) >= 5_000);
    for _ in 0..3_000 {
        let (n, _, _) = sizes(&mut random);
        // Few candidates leave positions at which none ends.
        let c = n + random.below(MOST_CANDIDATES - n + 1);
        let answer = check.walk(&walks::nearly_right(&mut random, n, c));
        words += answer.count;
        longest = longest.max(answer.count);
    }
    assert!(check.seen(0) >= 1_000 && check.seen(13) >= 6_000);
    assert!(words >= 50_000 && longest >= 500);
    assert_eq!(check.cases(), 3 * 2_000 + 3_000);
}
