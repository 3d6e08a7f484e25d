//! The whole job.

use super::characters::{characters, is_kanji};
use super::{MOST_BYTES, MOST_CANDIDATES, MOST_CHARACTERS, NONE};
use crate::library::segment::{Given, Rows};
use crate::library::Answer;

/// The largest height and width.
pub const MOST_IDS: u32 = 65_535;

/// The largest price and the largest threshold.
pub const MOST_PRICE: u32 = 32_767;
pub const MOST_THRESHOLD: u32 = 65_535;

/// The least and the greatest cost that an entry can have.
pub const LEAST_COST: i64 = -402_685_952;
pub const GREATEST_COST: i64 = 536_887_295;

/// The rows as vectors.
pub type Written = Rows<Vec<u32>, Vec<u16>, Vec<i32>, Vec<u8>>;

/// How many places of each row are asked, in the order of the rows.
pub fn named(n: usize, c: usize) -> [usize; 10] {
    let (characters, entries) = (n + 1, c + 2);
    let [offset, run, first, last] = [characters; 4];
    let [left, cost, next] = [entries; 3];
    [offset, run, first, last, left, cost, next, n, n, n]
}

/// Does with this job and these rows what the library has to do.
pub fn segment(given: &Given, rows: &mut Written) -> Answer {
    let text = match tested(given, rows) {
        Ok(text) => text,
        Err(refusal) => return refusal,
    };
    let table = characters(given.text, &rows.offset, &rows.run);
    (rows.offset, rows.run) = (table.offset, table.run);
    let mut entries = entries(given, &text);
    relax(given, &mut entries, text.len());
    fill(rows, &entries, text.len());

    let Some(end) = entries[entries.len() - 1].reached else {
        return Answer::refused(12, 0);
    };
    let words = words(&entries);
    for (i, &k) in words.iter().enumerate() {
        rows.word_offset[i] = rows.offset[usize::from(given.start[k])];
        rows.word_id[i] = word_id(given, k);
        rows.word_kind[i] = given.kind[k];
    }
    Answer::done(words.len(), stored(end.cost))
}

/// The tests in document 01's order; the characters, if all are passed.
fn tested(given: &Given, rows: &Written) -> Result<Vec<char>, Answer> {
    let refused = |number| Err(Answer::refused(number, 0));
    if given.text.len() > MOST_BYTES {
        return refused(2);
    }
    let text = match std::str::from_utf8(given.text) {
        Ok(text) => Vec::from_iter(text.chars()),
        Err(error) => return Err(Answer::refused(1, error.valid_up_to())),
    };
    let (n, c) = (text.len(), given.start.len());
    if n > MOST_CHARACTERS {
        return refused(2);
    }
    let lengths = [given.end.len(), given.kind.len(), given.extra.len()];
    if lengths != [c; 3] || given.entry.len() != 10 * c {
        return refused(3);
    }
    if c > MOST_CANDIDATES {
        return refused(4);
    }
    let sizes = [given.height, given.width];
    let values = u64::from(given.height) * u64::from(given.width);
    if sizes.iter().any(|&size| size == 0 || size > MOST_IDS) || given.matrix.len() as u64 != values
    {
        return refused(5);
    }
    if !is_mode(given) {
        return refused(6);
    }
    if (rows.lengths().iter().zip(named(n, c))).any(|(&places, asked)| places < asked) {
        return refused(7);
    }
    for k in 0..c {
        if let Some(number) = fault(given, k, n) {
            return Err(Answer::refused(number, k));
        }
    }
    Ok(text)
}

fn is_mode(given: &Given) -> bool {
    let penalty = &given.penalty;
    match given.mode {
        0 => true,
        1 => {
            penalty.kanji_price <= MOST_PRICE
                && penalty.other_price <= MOST_PRICE
                && penalty.kanji_threshold <= MOST_THRESHOLD
                && penalty.other_threshold <= MOST_THRESHOLD
        }
        _ => false,
    }
}

/// The first of the answers 8 to 11 that a candidate deserves.
fn fault(given: &Given, k: usize, n: usize) -> Option<u32> {
    let (start, end) = (given.start[k], given.end[k]);
    let [left_id, right_id] = ids(given, k);
    if given.kind[k] > 2 {
        Some(8)
    } else if k > 0 && start < given.start[k - 1] {
        Some(9)
    } else if end <= start || usize::from(end) > n {
        Some(10)
    } else if u32::from(left_id) >= given.height || u32::from(right_id) >= given.width {
        Some(11)
    } else {
        None
    }
}

/// So many bytes of a candidate's word entry.
fn field<const BYTES: usize>(given: &Given, k: usize, from: usize) -> [u8; BYTES] {
    std::array::from_fn(|i| given.entry[10 * k + from + i])
}

pub fn word_id(given: &Given, k: usize) -> u32 {
    u32::from_le_bytes(field(given, k, 0))
}

pub fn word_cost(given: &Given, k: usize) -> i16 {
    i16::from_le_bytes(field(given, k, 4))
}

/// Left id and right id.
pub fn ids(given: &Given, k: usize) -> [u16; 2] {
    [6, 8].map(|from| u16::from_le_bytes(field(given, k, from)))
}

/// One of the c + 2 entries.
pub struct Entry {
    pub start: usize,
    pub end: usize,
    pub left_id: usize,
    pub right_id: usize,
    /// Extra and word cost.
    pub own: i64,
    pub charge: i64,
    reached: Option<Reached>,
}

/// The start mark is reached from no entry.
#[derive(Clone, Copy)]
struct Reached {
    left: Option<usize>,
    cost: i64,
}

/// All entries of a job that has passed the tests, none of them reached but the start mark.
pub fn entries(given: &Given, text: &[char]) -> Vec<Entry> {
    let mark = |position, reached| Entry {
        start: position,
        end: position,
        left_id: 0,
        right_id: 0,
        own: 0,
        charge: 0,
        reached,
    };
    let candidate = |k: usize| {
        let (start, end) = (given.start[k].into(), given.end[k].into());
        let [left_id, right_id] = ids(given, k).map(usize::from);
        Entry {
            start,
            end,
            left_id,
            right_id,
            own: i64::from(given.extra[k]) + i64::from(word_cost(given, k)),
            charge: charge(given, &text[start..end]),
            reached: None,
        }
    };
    let from_nowhere = Reached {
        left: None,
        cost: 0,
    };
    let mut all = vec![mark(0, Some(from_nowhere))];
    all.extend((0..given.start.len()).map(candidate));
    all.push(mark(text.len(), None));
    all
}

/// What a word is charged on the left of a joint.
fn charge(given: &Given, word: &[char]) -> i64 {
    if given.mode == 0 {
        return 0;
    }
    let penalty = &given.penalty;
    let (threshold, price) = match word.iter().all(|&character| is_kanji(character)) {
        true => (penalty.kanji_threshold, penalty.kanji_price),
        false => (penalty.other_threshold, penalty.other_price),
    };
    let above = word.len() as i64 - i64::from(threshold);
    above.max(0) * i64::from(price)
}

/// What it costs to join an earlier entry to a later one.
pub fn joint(given: &Given, earlier: &Entry, later: &Entry) -> i64 {
    given.matrix[later.left_id * given.width as usize + earlier.right_id].into()
}

/// The numbers of all entries, reached or not, by the position at which they end.
fn by_end(entries: &[Entry], n: usize) -> Vec<Vec<usize>> {
    let mut ending = vec![Vec::new(); n + 1];
    for (number, entry) in entries.iter().enumerate() {
        ending[entry.end].push(number);
    }
    ending
}

/// Gives every entry the least of its offers, over all entries that end at its start. What ends at a
/// position starts below it, so in the order of starts each offer is known when it is asked for.
fn relax(given: &Given, entries: &mut [Entry], n: usize) {
    let ending = by_end(entries, n);
    let mut order: Vec<usize> = (1..entries.len()).collect();
    order.sort_by_key(|&number| entries[number].start);
    for number in order {
        let entry = &entries[number];
        let offer = |&left: &usize| {
            let earlier = &entries[left];
            let cost = earlier.reached?.cost + joint(given, earlier, entry) + earlier.charge;
            Some((cost, left))
        };
        let others = ending[entry.start].iter().filter(|&&left| left != number);
        // Of equal costs the pair with the lower number is the less.
        let least = others.filter_map(offer).min();
        entries[number].reached = least.map(|(cost, left)| Reached {
            left: Some(left),
            cost: cost + entry.own,
        });
    }
}

/// Fills the five rows of the lattice.
fn fill(rows: &mut Written, entries: &[Entry], n: usize) {
    let link = |number: Option<usize>| number.map_or(NONE, |number| number as u16);
    for (number, entry) in entries.iter().enumerate() {
        rows.left[number] = link(entry.reached.and_then(|reached| reached.left));
        rows.cost[number] = entry.reached.map_or(0, |reached| stored(reached.cost));
        rows.next[number] = NONE;
    }
    for (position, ending) in by_end(entries, n).into_iter().enumerate() {
        let is_reached = |&number: &usize| entries[number].reached.is_some();
        let there: Vec<usize> = ending.into_iter().filter(is_reached).collect();
        rows.first[position] = link(there.first().copied());
        rows.last[position] = link(there.last().copied());
        for (i, &number) in there.iter().enumerate() {
            rows.next[number] = link(there.get(i + 1).copied());
        }
    }
}

/// A cost as the row holds it; document 01 says how large it can be.
fn stored(cost: i64) -> i32 {
    assert!((LEAST_COST..=GREATEST_COST).contains(&cost), "cost {cost}");
    cost as i32
}

/// The candidates on the way from the end mark, which is reached, to the start mark, in sentence
/// order.
fn words(entries: &[Entry]) -> Vec<usize> {
    let mut backwards = Vec::new();
    let mut entry = &entries[entries.len() - 1];
    while let Some(number @ 1..) = entry.reached.and_then(|reached| reached.left) {
        backwards.push(number - 1);
        entry = &entries[number];
    }
    backwards.reverse();
    backwards
}

impl Written {
    /// How many places each row has, in the order of the rows.
    pub fn lengths(&self) -> [usize; 10] {
        [
            self.offset.len(),
            self.run.len(),
            self.first.len(),
            self.last.len(),
            self.left.len(),
            self.cost.len(),
            self.next.len(),
            self.word_offset.len(),
            self.word_id.len(),
            self.word_kind.len(),
        ]
    }
}

#[cfg(test)]
mod tests {
    use super::*;
    use crate::jobs::{Candidate, Job};

    /// The model on rows of nine places that hold 9, against values written out by hand: answer,
    /// left, cost, next, first, last, and the ids of the words.
    fn held(job: &Job, answer: Answer, entries: [&[i32]; 3], positions: [&[u16]; 2], ids: &[u32]) {
        let mut rows = Written {
            offset: vec![9; 9],
            run: vec![9; 9],
            first: vec![9; 9],
            last: vec![9; 9],
            left: vec![9; 9],
            cost: vec![9; 9],
            next: vec![9; 9],
            word_offset: vec![9; 9],
            word_id: vec![9; 9],
            word_kind: vec![9; 9],
        };
        assert_eq!(segment(&job.given(), &mut rows), answer);
        let widened = |row: &[u16]| Vec::from_iter(row.iter().map(|&link| i32::from(link)));
        assert_eq!(widened(&rows.left), over(entries[0]));
        assert_eq!(rows.cost, over(entries[1]));
        assert_eq!(widened(&rows.next), over(entries[2]));
        assert_eq!(rows.first, over(positions[0]));
        assert_eq!(rows.last, over(positions[1]));
        assert_eq!(rows.word_id, over(ids));
    }

    /// These values and then 9 up to nine places.
    fn over<T: Copy + From<u8>>(values: &[T]) -> Vec<T> {
        let mut row = vec![T::from(9); 9];
        row[..values.len()].copy_from_slice(values);
        row
    }

    const N: i32 = NONE as i32;

    // Document 01's examples A, B, C, E, F, H and J.
    #[test]
    fn the_model_holds_the_examples() {
        let a = Job::new(b"").matrix(1, 1, &[7]);
        let entries: [&[i32]; 3] = [&[N, 0], &[0, 7], &[1, N]];
        held(&a, Answer::done(0, 7), entries, [&[0], &[1]], &[]);

        let b = Job::example_b();
        let next = [N, N, 3, N, 5, 6, N];
        let left = [N, 0, 0, 1, 1, 2, 5];
        let cost = [0, 300, 100, 500, 450, 220, 220];
        let entries: [&[i32]; 3] = [&left, &cost, &next];
        let positions: [&[u16]; 2] = [&[0, 1, 2, 4], &[0, 1, 3, 6]];
        let ids = [1_001, 1_004];
        held(&b, Answer::done(2, 220), entries, positions, &ids);
        let c = b.decompose([1, 500, 7, 0]);
        let left = [N, 0, 0, 1, 1, 3, 5];
        let cost = [0, 300, 100, 500, 450, 620, 620];
        let entries: [&[i32]; 3] = [&left, &cost, &next];
        let ids = [1_000, 1_002, 1_004];
        held(&c, Answer::done(3, 620), entries, positions, &ids);

        let e = Job::of(b"ab", &[(0, 1, 8)]);
        let entries: [&[i32]; 3] = [&[N, 0, N], &[0, 8, 0], &[N, N, N]];
        let positions: [&[u16]; 2] = [&[0, 1, NONE], &[0, 1, NONE]];
        held(&e, Answer::refused(12, 0), entries, positions, &[]);
        let f = Job::of(b"a", &[(0, 0, 0)]);
        held(&f, Answer::refused(10, 0), [&[]; 3], [&[]; 2], &[]);
        let h = Job::of(b"ab", &[(0, 2, 5), (1, 2, -32_768)]);
        let entries: [&[i32]; 3] = [&[N, 0, N, 1], &[0, 5, 0, 5], &[N, 3, N, N]];
        let positions: [&[u16]; 2] = [&[0, NONE, 1], &[0, NONE, 3]];
        held(&h, Answer::done(1, 5), entries, positions, &[1_000]);

        for (left_id, right_id, cost) in [(1, 0, 9), (0, 1, 5)] {
            let mut j = Job::new(b"a").matrix(2, 2, &[0, 5, 9, 0]);
            j.push(Candidate {
                end: 1,
                left_id,
                right_id,
                ..Candidate::default()
            });
            let word = if right_id == 0 { cost } else { 0 };
            let entries: [&[i32]; 3] = [&[N, 0, 1], &[0, word, cost], &[N, 2, N]];
            held(&j, Answer::done(1, cost), entries, [&[0, 1], &[0, 2]], &[0]);
        }
    }
}
