//! Makers of texts, good and bad.

use crate::random::Random;

/// Which characters a text is made of.
#[derive(Clone, Copy, Debug, PartialEq, Eq)]
pub enum Family {
    One,
    Two,
    Three,
    Four,
    Kanji,
    Edge,
    Mixed,
}

pub const FAMILIES: [Family; 7] = [
    Family::One,
    Family::Two,
    Family::Three,
    Family::Four,
    Family::Kanji,
    Family::Edge,
    Family::Mixed,
];

/// The characters on both sides of each end of the two kanji blocks.
pub const KANJI_EDGES: [char; 8] = [
    '\u{33FF}', '\u{3400}', '\u{4DBF}', '\u{4DC0}', '\u{4DFF}', '\u{4E00}', '\u{9FAF}', '\u{9FB0}',
];

/// The first and last characters of each length, and those beside the surrogates.
pub const UTF8_EDGES: [char; 10] = [
    '\u{0}',
    '\u{7F}',
    '\u{80}',
    '\u{7FF}',
    '\u{800}',
    '\u{D7FF}',
    '\u{E000}',
    '\u{FFFF}',
    '\u{10000}',
    '\u{10FFFF}',
];

/// Bytes at the ends of the ranges of RFC 3629, and their neighbours.
pub const BYTE_EDGES: [u8; 23] = [
    0x00, 0x01, 0x41, 0x7F, 0x80, 0x81, 0x8F, 0x90, 0x91, 0x9F, 0xA0, 0xA1, 0xBF, 0xC0, 0xC1, 0xC2,
    0xDF, 0xE0, 0xEF, 0xF0, 0xF4, 0xF5, 0xFF,
];

/// Surrogates, overlong forms, values over U+10FFFF, and bytes that never stand in UTF-8.
pub const ILL_FORMED: [&[u8]; 16] = [
    &[0xED, 0xA0, 0x80],
    &[0xED, 0xAF, 0xBF],
    &[0xED, 0xB0, 0x80],
    &[0xED, 0xBF, 0xBF],
    &[0xC0, 0x80],
    &[0xC1, 0xBF],
    &[0xE0, 0x80, 0x80],
    &[0xE0, 0x9F, 0xBF],
    &[0xF0, 0x80, 0x80, 0x80],
    &[0xF0, 0x8F, 0xBF, 0xBF],
    &[0xF4, 0x90, 0x80, 0x80],
    &[0xF5, 0x80, 0x80, 0x80],
    &[0x80],
    &[0xBF],
    &[0xFE],
    &[0xFF],
];

/// A random character of this family.
pub fn letter(random: &mut Random, family: Family) -> char {
    match family {
        Family::One => within(random, 0, 0x7F),
        Family::Two => within(random, 0x80, 0x7FF),
        Family::Three => match random.below(4) {
            0 => within(random, 0xE000, 0xFFFF),
            _ => within(random, 0x800, 0xD7FF),
        },
        Family::Four => within(random, 0x10000, 0x10FFFF),
        Family::Kanji => match random.below(2) {
            0 => within(random, 0x3400, 0x4DBF),
            _ => within(random, 0x4E00, 0x9FAF),
        },
        Family::Edge => match random.below(2) {
            0 => random.one_of(&KANJI_EDGES),
            _ => random.one_of(&UTF8_EDGES),
        },
        Family::Mixed => {
            let part = random.one_of(&FAMILIES[..6]);
            letter(random, part)
        }
    }
}

fn within(random: &mut Random, low: u32, high: u32) -> char {
    char::from_u32(random.from_to(low, high)).expect("no surrogate lies in the range")
}

/// A text of exactly so many characters.
pub fn of_characters(random: &mut Random, family: Family, count: usize) -> String {
    (0..count).map(|_| letter(random, family)).collect()
}

/// A text of exactly so many bytes; one character of another length may make up the sum.
pub fn of_bytes(random: &mut Random, family: Family, bytes: usize) -> String {
    let mut text = String::with_capacity(bytes);
    while text.len() < bytes {
        let room = bytes - text.len();
        let next = letter(random, family);
        if next.len_utf8() <= room {
            text.push(next);
        } else {
            let fitting = [Family::One, Family::Two, Family::Three][room - 1];
            text.push(letter(random, fitting));
        }
    }
    turned(random, &text)
}

/// The same characters from another start on, so that the odd one is not always the last.
fn turned(random: &mut Random, text: &str) -> String {
    let mut at = random.below(text.len() + 1);
    while !text.is_char_boundary(at) {
        at -= 1;
    }
    let (head, tail) = text.split_at(at);
    [tail, head].concat()
}

/// Exactly so many bytes (one or more), the last of them the start of a character cut short.
pub fn cut_short(random: &mut Random, family: Family, bytes: usize) -> Vec<u8> {
    let last = random.one_of(&[Family::Two, Family::Three, Family::Four]);
    let mut whole = [0; 4];
    let whole = letter(random, last).encode_utf8(&mut whole).as_bytes();
    let kept = 1 + random.below((whole.len() - 1).min(bytes));
    let mut text = of_bytes(random, family, bytes - kept).into_bytes();
    text.extend_from_slice(&whole[..kept]);
    text
}

/// The text with one byte changed at a random place; it may still be UTF-8.
pub fn one_byte_changed(random: &mut Random, text: &[u8]) -> Vec<u8> {
    let mut text = text.to_vec();
    if !text.is_empty() {
        let at = random.below(text.len());
        text[at] = match random.below(2) {
            0 => random.bits() as u8,
            _ => random.one_of(&BYTE_EDGES),
        };
    }
    text
}

/// The text with an ill-formed sequence laid over it, before a character or inside one.
pub fn ill_formed(random: &mut Random, text: &[u8]) -> Vec<u8> {
    let mut text = text.to_vec();
    let laid = random.one_of(&ILL_FORMED);
    if laid.len() <= text.len() {
        let mut at = random.below(text.len() - laid.len() + 1);
        // Three times in four at a character's start, where the sequence is looked at first.
        if random.below(4) > 0 {
            while at > 0 && text[at] & 0xC0 == 0x80 {
                at -= 1;
            }
        }
        text[at..at + laid.len()].copy_from_slice(laid);
    }
    text
}
