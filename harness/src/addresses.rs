//! Texts as a service sees them, for the bench.

use crate::model::MOST_CHARACTERS;
use crate::random::Random;

const REGIONS: [&str; 8] = [
    "東京都",
    "大阪府",
    "北海道",
    "神奈川県",
    "愛知県",
    "福岡県",
    "京都府",
    "埼玉県",
];
const CITIES: [&str; 8] = [
    "千代田区",
    "横浜市",
    "名古屋市中区",
    "札幌市北区",
    "世田谷区",
    "京都市左京区",
    "川口市",
    "さいたま市",
];
const TOWNS: [&str; 8] = [
    "霞が関",
    "本町",
    "三ノ輪",
    "西新宿",
    "旭ヶ丘",
    "大手町",
    "自由が丘",
    "緑町",
];
const BUILDINGS: [&str; 8] = [
    "サンハイツ",
    "コーポみどり",
    "グランドメゾン",
    "メゾン・ド・フルール",
    "ひまわり荘",
    "第二ビル",
    "Tower",
    "パークサイド",
];
const WORDS: [&str; 16] = [
    "Main",
    "Street",
    "Rue",
    "de",
    "l'Église",
    "Straße",
    "Avenue",
    "Łódź",
    "Flat",
    "São",
    "Paulo",
    "North",
    "Building",
    "Quai",
    "Ørsted",
    "Lane",
];
const SIGNS: [&str; 4] = ["🏠", "🏢", "📮", "𠮷野家"];

/// A Japanese address: kanji, kana, digits of one byte or of three.
pub fn japanese(random: &mut Random) -> String {
    let mut text = String::new();
    text += random.one_of(&REGIONS);
    text += random.one_of(&CITIES);
    text += random.one_of(&TOWNS);
    for unit in ["丁目", "番", "号"] {
        text += &numeral(random);
        text += unit;
    }
    text += random.one_of(&BUILDINGS);
    text + &numeral(random) + "号室 "
}

fn numeral(random: &mut Random) -> String {
    let digits = random.from_to(1, 120).to_string();
    match random.below(2) {
        0 => digits,
        _ => digits.bytes().map(|b| wide_digit(b - b'0')).collect(),
    }
}

fn wide_digit(digit: u8) -> char {
    char::from_u32('０' as u32 + u32::from(digit)).expect("a digit")
}

/// A Latin address, a few of its letters of two bytes.
pub fn latin(random: &mut Random) -> String {
    let mut text = random.from_to(1, 900).to_string();
    for _ in 0..4 {
        text.push(' ');
        text += random.one_of(&WORDS);
    }
    text + ", "
}

/// Either of them or a sign of four bytes.
pub fn mixed(random: &mut Random) -> String {
    match random.below(5) {
        0 | 1 => japanese(random),
        2 | 3 => latin(random),
        _ => random.one_of(&SIGNS).to_string(),
    }
}

/// One long text of such addresses: 12,000 bytes, or fewer where 4,096 characters are reached.
pub fn long(random: &mut Random, address: fn(&mut Random) -> String) -> String {
    let mut text = String::new();
    while text.len() < 12_000 {
        text += &address(random);
    }
    let upto = text.char_indices().take_while(|(at, _)| *at < 12_000);
    upto.take(MOST_CHARACTERS).map(|(_, c)| c).collect()
}

/// So many characters of Japanese addresses, one after the other.
pub fn of_characters(random: &mut Random, n: usize) -> String {
    let mut text = Vec::new();
    while text.len() < n {
        text.extend(japanese(random).chars());
    }
    text.into_iter().take(n).collect()
}

/// One short address of 18 characters.
pub fn short(random: &mut Random) -> String {
    let text = japanese(random) + &japanese(random);
    text.chars().take(18).collect()
}
