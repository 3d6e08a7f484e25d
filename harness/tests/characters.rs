//! The character table alone. Every case compares the answer, all places of both rows and the
//! guards around them with the model; every test counts its cases, so that none runs on nothing.

use harness::check::characters::{for_each_lead, Check};
use harness::library::Answer;
use harness::model::{MOST_BYTES, MOST_CHARACTERS};
use harness::random::Random;
use harness::texts::{self, Family, BYTE_EDGES, FAMILIES, ILL_FORMED};

/// One case, held against std directly too.
fn as_std_says(check: &mut Check, text: &[u8]) {
    let expected = match std::str::from_utf8(text) {
        Ok(string) => Answer::done(string.chars().count(), 0),
        Err(error) => Answer::refused(1, error.valid_up_to()),
    };
    assert_eq!(check.text(text), expected);
}

/// A text, the same text with one byte changed, and with an ill-formed sequence laid over it.
fn good_and_damaged(check: &mut Check, random: &mut Random, text: &str) {
    check.text(text.as_bytes());
    check.text(&texts::one_byte_changed(random, text.as_bytes()));
    check.text(&texts::ill_formed(random, text.as_bytes()));
}

// Every byte string of length 0, 1, 2 and 3.
#[test]
fn every_string_up_to_three_bytes() {
    let mut check = Check::new(0);
    as_std_says(&mut check, &[]);
    let cases = for_each_lead(|check, a| {
        as_std_says(check, &[a]);
        for b in 0..=255 {
            as_std_says(check, &[a, b]);
            for c in 0..=255 {
                as_std_says(check, &[a, b, c]);
            }
        }
    });
    assert_eq!(check.cases() + cases, 1 + (1 << 8) + (1 << 16) + (1 << 24));
}

// Strings of 4 bytes over every lead byte and the edge bytes; the same with a letter around.
#[test]
fn four_and_five_bytes_over_the_edges() {
    let cases = for_each_lead(|check, a| {
        for b in BYTE_EDGES {
            for c in BYTE_EDGES {
                for d in BYTE_EDGES {
                    as_std_says(check, &[a, b, c, d]);
                    as_std_says(check, &[b'A', a, b, c, d]);
                    as_std_says(check, &[a, b, c, d, b'A']);
                }
            }
        }
    });
    assert_eq!(cases, 3 * 256 * 23 * 23 * 23);
}

// Random texts at both limits and one or two beside them, good, damaged and cut short.
#[test]
fn random_texts_around_the_limits() {
    let mut check = Check::new(31);
    let mut random = Random::new(31);
    for family in FAMILIES.repeat(12) {
        for bytes in MOST_BYTES - 2..=MOST_BYTES + 2 {
            let text = texts::of_bytes(&mut random, family, bytes);
            assert_eq!(text.len(), bytes);
            good_and_damaged(&mut check, &mut random, &text);
            check.text(&texts::cut_short(&mut random, family, bytes));
        }
        for count in MOST_CHARACTERS - 2..=MOST_CHARACTERS + 2 {
            let text = texts::of_characters(&mut random, family, count);
            assert_eq!(text.chars().count(), count);
            good_and_damaged(&mut check, &mut random, &text);
            let bytes = text.len();
            check.text(&texts::cut_short(&mut random, family, bytes));
        }
    }
    assert_eq!(check.cases(), 12 * 7 * 10 * 4);
    assert!((0..=2).all(|number| check.seen(number) >= 200));
}

// Random shorter texts of every family, good, damaged and cut short.
#[test]
fn random_shorter_texts() {
    let mut check = Check::new(32);
    let mut random = Random::new(32);
    for most in [4, 12, 40, 200, 2_000] {
        for family in FAMILIES.repeat(400) {
            let count = random.below(most);
            let text = texts::of_characters(&mut random, family, count);
            good_and_damaged(&mut check, &mut random, &text);
            let bytes = 1 + random.below(most);
            check.text(&texts::cut_short(&mut random, family, bytes));
        }
    }
    assert_eq!(check.cases(), 5 * 7 * 400 * 4);
    assert!((0..=1).all(|number| check.seen(number) >= 3_000));
}

// Which limit is tested before which, with the answers written out.
#[test]
fn order_of_the_limits() {
    let mut check = Check::new(33);
    let mut held = |text: Vec<u8>, answer| assert_eq!(check.text(&text), answer);
    let done = |count| Answer::done(count, 0);
    let over = Answer::refused(2, 0);
    let bad_at = |place| Answer::refused(1, place);
    let letters = |count: usize| vec![b'a'; count];
    let followed = |mut text: Vec<u8>, by: &[u8]| {
        text.extend_from_slice(by);
        text
    };

    held(letters(4_096), done(4_096));
    held(letters(4_097), over);
    held("\u{20000}".repeat(4_096).into_bytes(), done(4_096));
    let one_too_many = "\u{20000}".repeat(4_095) + "éé";
    assert_eq!(one_too_many.len(), MOST_BYTES);
    held(one_too_many.into_bytes(), over);
    held(letters(16_384), over);
    // Bad bytes are found behind the 4,096th character, but not in a text of too many bytes.
    for good in [4_095, 4_096, 4_097, 16_383] {
        held(followed(letters(good), &[0xFF]), bad_at(good));
    }
    held(followed(letters(16_384), &[0xFF]), over);
    held(vec![0xFF; 16_384], bad_at(0));
    for length in [16_385, 65_535, 65_536, 65_537, 65_536 + 4_096, 131_072] {
        held(vec![0xFF; length], over);
        held(letters(length), over);
    }
    for bad in ILL_FORMED {
        held(followed(letters(4_097), bad), bad_at(4_097));
        let behind = followed(letters(16_384 - bad.len()), bad);
        held(behind, bad_at(16_384 - bad.len()));
        held(followed(letters(16_385 - bad.len()), bad), over);
    }
    assert_eq!(check.cases(), 5 + 4 + 2 + 2 * 6 + 3 * 16);
}

// Both rows short, exact, longer and empty, in all combinations: 7 comes after 2 and 1.
#[test]
fn lengths_of_the_rows() {
    let mut check = Check::new(4);
    let mut random = Random::new(4);
    let mut all: Vec<Vec<u8>> = ["", "a", "é", "東", "𠀀", "東京都", "aé東𠀀"]
        .map(|text| text.as_bytes().to_vec())
        .to_vec();
    for family in FAMILIES {
        for count in [17, 255, 256, 4_095, 4_096, 4_097] {
            all.push(texts::of_characters(&mut random, family, count).into_bytes());
        }
        all.push(texts::cut_short(&mut random, family, 30));
        all.push(texts::of_bytes(&mut random, family, MOST_BYTES + 1).into_bytes());
    }
    for text in &all {
        let roomy = check.text(text);
        // A refused text has no n: any lengths will do, and none of them may matter.
        let named = roomy.count as usize + 1;
        let lengths = [0, named - 1, named, named + 1, named + 500, 65_536, 70_000];
        for offset_len in lengths {
            for run_len in lengths {
                let short = offset_len < named || run_len < named;
                let expected = match roomy.number {
                    0 if short => Answer::refused(7, 0),
                    _ => roomy,
                };
                assert_eq!(check.rows(text, offset_len, run_len), expected);
            }
        }
    }
    assert_eq!(check.cases(), (7 + 7 * 8) * (1 + 7 * 7));
    assert!([0, 1, 2, 7].iter().all(|&number| check.seen(number) >= 300));
}

// Every Unicode scalar value, by itself and between two kanji.
#[test]
fn every_character() {
    let mut check = Check::new(51);
    for character in '\0'..=char::MAX {
        let mut alone = [0; 4];
        let alone = character.encode_utf8(&mut alone).as_bytes();
        assert_eq!(check.text(alone), Answer::done(1, 0));
        let between = ["東".as_bytes(), alone, "京".as_bytes()].concat();
        assert_eq!(check.text(&between), Answer::done(3, 0));
    }
    assert_eq!(check.cases(), 2 * (0x11_0000 - 0x800));
}

// Long runs of kanji, whole and broken at random places.
#[test]
fn long_kanji_runs() {
    let mut check = Check::new(52);
    let mut random = Random::new(52);
    for breaks in [0, 1, 2, 5, 30, 300].repeat(8) {
        for count in [255, 256, 257, 1_000, 4_095, 4_096, 4_097] {
            let text = texts::of_characters(&mut random, Family::Kanji, count);
            let mut all: Vec<char> = text.chars().collect();
            for _ in 0..breaks {
                let family = random.one_of(&FAMILIES);
                all[random.below(count)] = texts::letter(&mut random, family);
            }
            check.text(String::from_iter(all).as_bytes());
        }
    }
    assert_eq!(check.cases(), 6 * 8 * 7);
    assert!(check.seen(0) >= 6 * 8 * 6);
}
