//! What the Rust does where document 01 decides otherwise. Each test is one sentence of
//! docs/DIFFERENCES.md, on the smallest job that shows it.

use super::direct::{Direct, kind, word_entry};
use super::{Edge, Lattice, LatticeOptions, LexType, PATH_COST_CLAMP, WordEntry, WordId};
use crate::dictionary::character_definition::CharacterDefinition;
use crate::dictionary::connection_cost_matrix::ConnectionCostMatrix;
use crate::dictionary::prefix_dictionary::PrefixDictionary;
use crate::dictionary::unknown_dictionary::UnknownDictionary;
use crate::mode::{Mode, Penalty};
use crate::{Answer, Job, Matrix};
use std::panic::{AssertUnwindSafe, catch_unwind};

/// A word with both ids 0.
struct Word {
    span: [usize; 2],
    id: u32,
    cost: i16,
    extra: i32,
}

impl Word {
    fn entry(&self) -> WordEntry {
        let id = WordId::new(LexType::System, self.id);
        WordEntry::new(id, self.cost, 0, 0)
    }
}

fn word(start: usize, end: usize, id: u32, cost: i16) -> Word {
    Word {
        span: [start, end],
        id,
        cost,
        extra: 0,
    }
}

/// Hands words in that document 01 may refuse, over a matrix 1×1 of 0.
fn run(direct: &mut Direct, text: &str, words: &[Word], mode: &Mode) -> Answer {
    run_with(|_| (), direct, text, words, mode)
}

/// The same with something done to the lattice before every word.
fn run_with(
    before: impl Fn(&mut Lattice),
    direct: &mut Direct,
    text: &str,
    words: &[Word],
    mode: &Mode,
) -> Answer {
    let matrix = Matrix::new(1, 1, &[0]);
    direct.begin(text, mode);
    for word in words {
        before(&mut direct.lattice);
        direct.add(word.span, word.entry(), word.extra, &matrix, mode);
    }
    direct.finish(&matrix, mode);
    (direct.lattice).tokens_offset_into(&mut direct.tokens);
    direct.lattice.answer(&direct.tokens)
}

fn new() -> Direct {
    Direct::new().expect("the source is there")
}

fn decompose(k: usize, p: i32, o: usize, q: i32) -> Mode {
    Mode::Decompose(Penalty {
        kanji_penalty_length_threshold: k,
        kanji_penalty_length_penalty: p,
        other_penalty_length_threshold: o,
        other_penalty_length_penalty: q,
    })
}

fn done(count: u32, cost: i32) -> Answer {
    Answer {
        number: 0,
        count,
        cost,
    }
}

const NO_PATH: Answer = Answer {
    number: 12,
    count: 0,
    cost: 0,
};

/// Offsets and ids of the tokens.
fn tokens(direct: &Direct) -> Vec<(usize, u32)> {
    let told = direct.tokens.iter();
    told.map(|&(offset, word)| (offset, word.id())).collect()
}

/// The costs of the edges in the slot of a position.
fn costs(direct: &Direct, position: usize) -> Vec<i32> {
    let slot = direct.lattice.ends_at[position].iter();
    slot.map(Edge::path_cost).collect()
}

/// Whether it panics with a message that has these words.
fn panics<T>(words: &str, work: impl FnOnce() -> T) -> bool {
    let Err(payload) = catch_unwind(AssertUnwindSafe(work)) else {
        return false;
    };
    match payload.downcast_ref::<String>() {
        Some(message) => message.contains(words),
        None => payload.downcast_ref::<&str>() == Some(&words),
    }
}

// Without an end mark the last word of the last filled slot is taken for it and left out.
#[test]
fn no_end_mark() {
    let mut direct = new();
    let e = [word(0, 1, 7, 0)];
    assert_eq!(run(&mut direct, "ab", &e, &Mode::Normal), NO_PATH);
    assert_eq!(tokens(&direct), []);
    let two = [word(0, 1, 7, 0), word(1, 2, 8, 0)];
    assert_eq!(run(&mut direct, "abc", &two, &Mode::Normal), NO_PATH);
    assert_eq!(tokens(&direct), [(0, 7)]);
}

// In Normal no character is a kanji and every run is 0.
#[test]
fn runs_in_normal() {
    let runs = |mode: &Mode| {
        let mut direct = new();
        run(&mut direct, "東", &[], mode);
        let table = direct.lattice.char_info_buffer;
        Vec::from_iter(table.iter().map(|of| (of.is_kanji, of.kanji_run_char_len)))
    };
    assert_eq!(runs(&Mode::Normal), [(false, 0), (false, 0)]);
    assert_eq!(runs(&decompose(0, 0, 0, 0)), [(true, 1), (false, 0)]);
}

// A word of no characters goes into the slot it starts from, and is taken as a left if that costs less.
#[test]
fn zero_length() {
    let mut direct = new();
    let f = [word(0, 0, 7, 0)];
    assert_eq!(run(&mut direct, "a", &f, &Mode::Normal), NO_PATH);
    assert_eq!(costs(&direct, 0), [0, 0]);
    assert_eq!(tokens(&direct), []);
    let taken = [word(0, 0, 7, -1), word(0, 1, 8, 0)];
    assert_eq!(run(&mut direct, "a", &taken, &Mode::Normal), done(2, -1));
    assert_eq!(tokens(&direct), [(0, 7), (0, 8)]);
}

// In Decompose the charges of a position are kept from its first word on, and a word of no characters
// makes the slot longer than they are.
#[test]
fn zero_length_in_decompose() {
    let words = [word(0, 0, 7, 0), word(0, 1, 8, 0)];
    let mode = decompose(0, 0, 0, 0);
    let due = "index out of bounds: the len is 1 but the index is 1";
    assert!(panics(due, || run(&mut new(), "a", &words, &mode)));
}

// An end above n is out of bounds on a new lattice. On one that has had a longer text it goes unseen into
// a slot behind the text, and stays there: the next longer text has a word that is not its own.
#[test]
fn end_above_n() {
    let g = [word(0, 2, 7, 0)];
    let due = "index out of bounds: the len is 2 but the index is 2";
    assert!(panics(due, || run(&mut new(), "a", &g, &Mode::Normal)));
    let mut used = new();
    run(&mut used, "ab", &[], &Mode::Normal);
    assert_eq!(run(&mut used, "a", &g, &Mode::Normal), NO_PATH);
    assert_eq!(costs(&used, 2), [0]);
    assert_eq!(tokens(&used), []);
    if cfg!(debug_assertions) {
        let due = "ends_at slot beyond last_n_chars must be empty";
        assert!(panics(due, || run(&mut used, "ab", &[], &Mode::Normal)));
    } else {
        assert_eq!(run(&mut used, "ab", &[], &Mode::Normal), done(1, 0));
        assert_eq!(tokens(&used), [(0, 7)]);
    }
}

/// A job of one word over "a" with these ids, over a matrix that may have values to spare.
fn with_ids(left_id: u16, right_id: u16, matrix: &Matrix) -> Answer {
    let mut direct = new();
    direct.begin("a", &Mode::Normal);
    let entry = WordEntry::new(WordId::new(LexType::System, 7), 0, left_id, right_id);
    direct.add([0, 1], entry, 0, matrix, &Mode::Normal);
    direct.finish(matrix, &Mode::Normal);
    (direct.lattice).tokens_offset_into(&mut direct.tokens);
    direct.lattice.answer(&direct.tokens)
}

// A right id out of the row is out of bounds as soon as a later word or the end mark is joined to it.
#[test]
fn right_id_out_of_range() {
    let matrix = Matrix::new(1, 1, &[0]);
    let due = "index out of bounds: the len is 1 but the index is 1";
    assert!(panics(due, || with_ids(0, 1, &matrix)));
    let mut direct = new();
    direct.begin("ab", &Mode::Normal);
    let entry = WordEntry::new(WordId::new(LexType::System, 7), 0, 0, 1);
    direct.add([0, 1], entry, 0, &matrix, &Mode::Normal);
    direct.finish(&matrix, &Mode::Normal);
    assert_eq!(costs(&direct, 1), [0]);
}

// A left id out of range is out of bounds, unless nothing reaches the word.
#[test]
fn left_id_out_of_range() {
    let matrix = Matrix::new(1, 1, &[0]);
    let due = "range end index 2 out of range for slice of length 1";
    assert!(panics(due, || with_ids(1, 0, &matrix)));
    let mut direct = new();
    direct.begin("ab", &Mode::Normal);
    let entry = WordEntry::new(WordId::new(LexType::System, 7), 0, 1, 0);
    direct.add([1, 2], entry, 0, &matrix, &Mode::Normal);
    assert_eq!(costs(&direct, 2), []);
}

/// The bytes that `load` reads: a mark, width, height and the values.
fn bytes(width: i16, height: i16, values: &[i16]) -> Vec<u8> {
    let numbers = [&[-1, width, height], values].concat();
    numbers.into_iter().flat_map(i16::to_le_bytes).collect()
}

// `load` takes values to spare, and a left id behind the last row reads them; too few it refuses.
#[test]
fn surplus_values() {
    let surplus = ConnectionCostMatrix::load(bytes(1, 1, &[0, 9])).expect("it is taken");
    assert_eq!(surplus.costs(), [0, 9]);
    assert_eq!(with_ids(1, 0, &Matrix(surplus)), done(1, 9));
    assert!(ConnectionCostMatrix::load(bytes(1, 1, &[])).is_err());
}

// `load` reads sizes as i16: 32,767 is the largest.
#[test]
fn sizes_of_load() {
    let values = vec![0; 32_768];
    let largest = ConnectionCostMatrix::load(bytes(32_767, 1, &values[..32_767]));
    assert_eq!(largest.expect("it is taken").forward_size, 32_767);
    assert!(ConnectionCostMatrix::load(bytes(-32_768, 1, &values)).is_err());
}

// A word that comes before the one it follows on is left out; there may then be no path.
#[test]
fn out_of_order() {
    let mut direct = new();
    let turned = [word(1, 2, 8, 0), word(0, 1, 7, 0)];
    assert_eq!(run(&mut direct, "ab", &turned, &Mode::Normal), NO_PATH);
    assert_eq!(costs(&direct, 2), []);
}

// A word does not see rivals that come after it, so that the cost is not the least.
#[test]
fn out_of_order_at_another_cost() {
    let mut direct = new();
    let late = [word(0, 1, 7, 5), word(1, 2, 8, 0), word(0, 1, 9, 0)];
    assert_eq!(run(&mut direct, "ab", &late, &Mode::Normal), done(2, 5));
    assert_eq!(tokens(&direct), [(0, 7), (1, 8)]);
    let sorted = [word(0, 1, 7, 5), word(0, 1, 9, 0), word(1, 2, 8, 0)];
    assert_eq!(run(&mut direct, "ab", &sorted, &Mode::Normal), done(2, 0));
    assert_eq!(tokens(&direct), [(0, 9), (1, 8)]);
}

// The charges kept for a position are made anew when another one has been between, so that no order of
// words of one and more characters makes them stale.
#[test]
fn charges_kept_in_any_order() {
    let spans = [[0, 1], [0, 2], [0, 3], [1, 2], [1, 3], [2, 3]];
    let mode = decompose(0, 2, 1, 3);
    let (mut cases, mut reached) = (0, 0);
    for lists in 0..6_usize.pow(4) {
        let span = |place: u32| spans[lists / 6_usize.pow(place) % 6];
        let words = [0, 1, 2, 3].map(|place| Word {
            span: span(place),
            ..word(0, 0, place, [3, 1, 2, 0][place as usize])
        });
        let (mut kept, mut anew) = (new(), new());
        let found = run(&mut kept, "東a東", &words, &mode);
        let reset = |lattice: &mut Lattice| lattice.penalty_cache_pos = usize::MAX;
        assert_eq!(found, run_with(reset, &mut anew, "東a東", &words, &mode));
        assert_eq!(tokens(&kept), tokens(&anew));
        (cases, reached) = (cases + 1, reached + u32::from(found.number == 0));
    }
    assert_eq!(cases, 1_296);
    assert!(reached >= 400, "{reached}");
}

// Without a reset between texts the charges of the text before are used for position 0 of this one.
#[test]
fn charges_kept_from_text_to_text() {
    let mut lattice = Lattice::default();
    assert_eq!(lattice.penalty_cache_pos, 0);
    assert!(lattice.penalty_cache.is_empty());
    lattice.record_and_grow(1);
    lattice.ends_at[0].push(Edge::default());
    let edge = Lattice::create_edge(WordEntry::default(), 0, false);
    let matrix = Matrix::new(1, 1, &[0]);
    let mode = decompose(0, 0, 0, 0);
    let due = "index out of bounds: the len is 0 but the index is 0";
    let add = || lattice.add_edge_in_lattice(edge, 1, &matrix.0, &mode, 0);
    assert!(panics(due, add));
}

// The ten bytes carry no kind: the caller says whether a word is the system's or the user's, and an
// unknown word is not read from them.
#[test]
fn kinds() {
    let entry = [7, 0, 0, 0, 0x00, 0x80, 1, 0, 2, 0];
    let system = WordEntry::deserialize(&entry, true);
    let user = WordEntry::deserialize(&entry, false);
    assert_eq!(system.word_id().lex_type(), LexType::System);
    assert_eq!(user.word_id().lex_type(), LexType::User);
    let unknown = word_entry(&entry, 2);
    assert_eq!(unknown.word_id(), WordId::new(LexType::Unknown, 7));
    for word in [system, user, unknown] {
        assert_eq!(
            (word.word_cost(), word.left_id(), word.right_id()),
            (-32_768, 1, 2)
        );
    }
    assert_eq!(
        [0, 1, 2].map(|of| kind(word_entry(&entry, of).word_id().lex_type())),
        [0, 1, 2]
    );
}

// An extra is any i32.
#[test]
fn extra_beyond_i16() {
    let mut direct = new();
    let mut one = word(0, 1, 7, 1);
    one.extra = 32_768;
    assert_eq!(
        run(&mut direct, "a", &[one], &Mode::Normal),
        done(1, 32_769)
    );
}

// A word's cost is cut down to the clamp; the end mark's is not, and there is no clamp from below.
#[test]
fn clamp() {
    assert_eq!(PATH_COST_CLAMP, 2_147_352_575);
    assert_eq!(PATH_COST_CLAMP, i32::MAX - 131_072);
    let cost = |extra: i32, cost: i16| {
        let mut direct = new();
        let mut one = word(0, 1, 7, cost);
        one.extra = extra;
        run(&mut direct, "a", &[one], &Mode::Normal).cost
    };
    assert_eq!(cost(PATH_COST_CLAMP, 0), PATH_COST_CLAMP);
    assert_eq!(cost(PATH_COST_CLAMP, -1), PATH_COST_CLAMP - 1);
    assert_eq!(cost(PATH_COST_CLAMP, 1), PATH_COST_CLAMP);
    assert_eq!(cost(i32::MAX, 32_767), PATH_COST_CLAMP);
    assert_eq!(cost(i32::MIN, -1), i32::MIN);

    let joint = Matrix::new(1, 1, &[32_767]);
    let mut direct = new();
    direct.begin("a", &Mode::Normal);
    direct.add(
        [0, 1],
        WordEntry::default(),
        i32::MAX,
        &joint,
        &Mode::Normal,
    );
    direct.finish(&joint, &Mode::Normal);
    let end = direct.lattice.end_mark().map(Edge::path_cost);
    assert_eq!(end, Some(PATH_COST_CLAMP + 32_767));
}

// A word whose every offer saturates at i32::MAX is left out and not clamped.
#[test]
fn saturated_offers() {
    let mut direct = new();
    let mut first = word(0, 1, 7, 0);
    first.extra = i32::MAX;
    let words = [first, word(1, 2, 8, 0)];
    let mode = decompose(0, 0, 0, 131_073);
    assert_eq!(run(&mut direct, "ab", &words, &mode), NO_PATH);
    assert_eq!(costs(&direct, 1), [PATH_COST_CLAMP]);
    assert_eq!(costs(&direct, 2), []);
}

/// The Rust's own `set_text_with_options`, with no words.
fn set_text(text: &str) {
    Lattice::default().set_text_with_options(
        &PrefixDictionary {
            characters: text.len(),
            words: Vec::new(),
        },
        &None,
        &CharacterDefinition,
        &UnknownDictionary,
        &Matrix::new(1, 1, &[0]).0,
        text,
        &LatticeOptions::new(&Mode::Normal),
    );
}

// 65,535 characters are asserted against, 65,534 are not.
#[test]
fn characters_of_a_text() {
    set_text(&"a".repeat(65_534));
    let due = "sentence has 65535 characters, exceeding the u16::MAX-1 limit";
    assert!(panics(due, || set_text(&"a".repeat(65_535))));
}

// A word of O < L ≤ K that is not kanji only is charged nothing; document 01 charges (L − O) × Q.
#[test]
fn charge_where_o_is_below_k() {
    let charge = |k: u32, o: u32| {
        let job = Job {
            text: "a",
            start: &[0],
            end: &[1],
            kind: &[0],
            extra: &[0],
            entry: &[[0; 10]],
            mode: crate::Mode::Decompose {
                kanji_threshold: k,
                kanji_price: 0,
                other_threshold: o,
                other_price: 1,
            },
        };
        new().run(&job, &Matrix::new(1, 1, &[0])).cost
    };
    assert_eq!(charge(0, 0), 1);
    assert_eq!(charge(1, 0), 0);
}
