//! Makers of jobs, good and damaged.

use crate::addresses;
use crate::check::every;
use crate::library::segment::{Given, Penalty};
use crate::model::characters::is_kanji;
use crate::model::segment::{ids, word_cost, word_id};
use crate::model::MOST_CHARACTERS;
use crate::random::Random;
use crate::texts::{self, Family, FAMILIES};

/// What a job is given.
#[derive(Clone, Debug, Default, PartialEq, Eq)]
pub struct Job {
    pub text: Vec<u8>,
    pub start: Vec<u16>,
    pub end: Vec<u16>,
    pub kind: Vec<u8>,
    pub extra: Vec<i16>,
    pub entry: Vec<u8>,
    pub height: u32,
    pub width: u32,
    pub matrix: Vec<i16>,
    pub mode: u32,
    pub penalty: Penalty,
}

/// One candidate, with the fields of its word entry.
#[derive(Clone, Copy, Debug, Default)]
pub struct Candidate {
    pub start: u16,
    pub end: u16,
    pub kind: u8,
    pub extra: i16,
    pub id: u32,
    pub cost: i16,
    pub left_id: u16,
    pub right_id: u16,
}

impl Job {
    /// Document 01's usual job: no candidates yet, a matrix 1×1 of 0, Normal.
    pub fn new(text: &[u8]) -> Job {
        Job {
            text: text.to_vec(),
            height: 1,
            width: 1,
            matrix: vec![0],
            ..Job::default()
        }
    }

    /// The usual job with candidates of these spans and word costs; a candidate's id tells its number.
    pub fn of(text: &[u8], candidates: &[(u16, u16, i16)]) -> Job {
        let mut job = Job::new(text);
        for (k, &(start, end, cost)) in candidates.iter().enumerate() {
            job.push(Candidate {
                start,
                end,
                cost,
                id: 1_000 + k as u32,
                ..Candidate::default()
            });
        }
        job
    }

    /// Document 01's example B.
    pub fn example_b() -> Job {
        let candidates = [
            (0, 1, 300),
            (0, 2, 100),
            (1, 2, 200),
            (1, 3, 150),
            (2, 3, 120),
        ];
        Job::of("東京都".as_bytes(), &candidates)
    }

    /// The same job in Decompose.
    pub fn decompose(mut self, [k, p, o, q]: [u32; 4]) -> Job {
        self.mode = 1;
        self.penalty = Penalty {
            kanji_threshold: k,
            kanji_price: p,
            other_threshold: o,
            other_price: q,
        };
        self
    }

    /// The same job with another matrix.
    pub fn matrix(mut self, height: u32, width: u32, values: &[i16]) -> Job {
        (self.height, self.width) = (height, width);
        self.matrix = values.to_vec();
        self
    }

    pub fn push(&mut self, candidate: Candidate) {
        self.start.push(candidate.start);
        self.end.push(candidate.end);
        self.kind.push(candidate.kind);
        self.extra.push(candidate.extra);
        self.entry.extend(candidate.id.to_le_bytes());
        self.entry.extend(candidate.cost.to_le_bytes());
        self.entry.extend(candidate.left_id.to_le_bytes());
        self.entry.extend(candidate.right_id.to_le_bytes());
    }

    /// Candidate k, with the fields of its word entry.
    pub fn candidate(&self, k: usize) -> Candidate {
        let given = self.given();
        let [left_id, right_id] = ids(&given, k);
        Candidate {
            start: self.start[k],
            end: self.end[k],
            kind: self.kind[k],
            extra: self.extra[k],
            id: word_id(&given, k),
            cost: word_cost(&given, k),
            left_id,
            right_id,
        }
    }

    pub fn set_left_id(&mut self, k: usize, id: u16) {
        self.entry[10 * k + 6..10 * k + 8].copy_from_slice(&id.to_le_bytes());
    }

    pub fn set_right_id(&mut self, k: usize, id: u16) {
        self.entry[10 * k + 8..10 * k + 10].copy_from_slice(&id.to_le_bytes());
    }

    /// How many candidates there are, by the start row.
    pub fn candidates(&self) -> usize {
        self.start.len()
    }

    /// How many characters the text has, or bytes if it is not UTF-8.
    pub fn characters(&self) -> usize {
        match std::str::from_utf8(&self.text) {
            Ok(text) => text.chars().count(),
            Err(_) => self.text.len(),
        }
    }

    pub fn given(&self) -> Given<'_> {
        Given {
            text: &self.text,
            start: &self.start,
            end: &self.end,
            kind: &self.kind,
            extra: &self.extra,
            entry: &self.entry,
            height: self.height,
            width: self.width,
            matrix: &self.matrix,
            mode: self.mode,
            penalty: self.penalty,
        }
    }

    /// The lengths and first places of what is given, for a message.
    pub fn shown(&self) -> String {
        fn head<T: std::fmt::Debug>(row: &[T], most: usize) -> String {
            format!("{} places {:?}", row.len(), &row[..row.len().min(most)])
        }
        [
            format!("text {}", head(&self.text, 24)),
            format!("start {}", head(&self.start, 12)),
            format!("end {}", head(&self.end, 12)),
            format!("kind {}", head(&self.kind, 12)),
            format!("extra {}", head(&self.extra, 12)),
            format!("entry {}", head(&self.entry, 120)),
            format!(
                "matrix {}×{}, {}",
                self.height,
                self.width,
                head(&self.matrix, 12)
            ),
            format!("mode {}, {:?}", self.mode, self.penalty),
        ]
        .join("; ")
    }
}

/// Every list of c words within n characters, in the order of their starts.
pub fn every_list(n: u16, c: usize) -> Vec<Vec<(u16, u16)>> {
    let words = |start| (start + 1..=n).map(move |end| (start, end));
    let words: Vec<(u16, u16)> = (0..n).flat_map(words).collect();
    let mut lists = every(c, &words);
    lists.retain(|list| list.is_sorted_by_key(|span| span.0));
    lists
}

/// What is special about a job.
#[derive(Clone, Copy, Debug, PartialEq, Eq)]
pub enum Make {
    /// Anything that passes the tests and has a path.
    Any,
    /// Few different costs, so that many paths cost the same.
    Ties,
    /// Candidates that leave gaps: some are not reached, and often the end mark is not.
    Sparse,
    /// A position over which no candidate leads.
    NoPath,
    /// Costs, joints, extras, prices and thresholds at the ends of their ranges.
    Extremes,
    /// A text of kanji, kana, Latin letters and emoji by turns, and words along these turns.
    Scripts,
    /// Decompose, with thresholds beside the length of one of the words.
    Lengths,
}

pub const MAKES: [Make; 7] = [
    Make::Any,
    Make::Ties,
    Make::Sparse,
    Make::NoPath,
    Make::Extremes,
    Make::Scripts,
    Make::Lengths,
];

const COST_EDGES: [i16; 7] = [-32_768, -32_767, -1, 0, 1, 32_766, 32_767];
const PRICE_EDGES: [u32; 4] = [0, 1, 32_766, 32_767];
const THRESHOLD_EDGES: [u32; 7] = [0, 1, 2, 4_095, 4_096, 65_534, 65_535];

/// A job of n characters and about c candidates (none if n is 0) that passes all tests before 12.
pub fn job(random: &mut Random, make: Make, n: usize, c: usize) -> Job {
    let text = text(random, make, n);
    let mut job = Job::new(text.as_bytes());
    lay_matrix(random, make, &mut job);
    let spans = match n {
        0 => Vec::new(),
        _ => spans(random, make, &text, n, c),
    };
    fill(random, make, job, &spans)
}

/// A job of n characters with from 1 to 40 candidates at each position.
pub fn dense(random: &mut Random, n: usize) -> Job {
    let make = random.one_of(&[Make::Any, Make::Ties, Make::Extremes]);
    let mut job = Job::new(text(random, make, n).as_bytes());
    lay_matrix(random, make, &mut job);
    let mut spans = Vec::new();
    for start in 0..n {
        for _ in 0..1 + random.below(40) {
            let end = start + 1 + random.below(n - start);
            spans.push((start as u16, end as u16));
        }
    }
    fill(random, make, job, &spans)
}

/// A job as a service has it, in Normal: n characters of addresses, and c candidates, which are not
/// fewer. Its matrix is `address_matrix` of so many ids, lent apart: many jobs share one.
pub fn address(random: &mut Random, n: usize, c: usize, ids: usize) -> Job {
    let mut job = Job::new(addresses::of_characters(random, n).as_bytes());
    let mut spans: Vec<(usize, usize)> = (0..n).map(|start| (start, start + 1)).collect();
    while spans.len() < c {
        let start = random.below(n);
        spans.push((start, n.min(start + 1 + random.below(5))));
    }
    spans.sort_by_key(|span| span.0);
    for (start, end) in spans {
        let extra = match random.below(8) {
            0 => random.below(3_000) as i16,
            _ => 0,
        };
        job.push(Candidate {
            start: start as u16,
            end: end as u16,
            kind: random.below(3) as u8,
            extra,
            id: random.bits() as u32,
            cost: random.below(6_000) as i16,
            left_id: random.below(ids) as u16,
            right_id: random.below(ids) as u16,
        });
    }
    job
}

/// The values of a matrix of so many left and right ids.
pub fn address_matrix(random: &mut Random, ids: usize) -> Vec<i16> {
    let joint = |_| random.below(4_000) as i16 - 1_500;
    (0..ids * ids).map(joint).collect()
}

/// One word for each of 4,096 characters, with this cost, extra and joint everywhere.
pub fn at_the_end(letter: char, cost: i16) -> Job {
    let text = String::from_iter([letter; MOST_CHARACTERS]);
    let mut job = Job::new(text.as_bytes()).matrix(1, 1, &[cost]);
    for start in 0..MOST_CHARACTERS as u16 {
        job.push(Candidate {
            start,
            end: start + 1,
            extra: cost,
            cost,
            ..Candidate::default()
        });
    }
    job
}

/// The job with candidates of these spans and a mode.
fn fill(random: &mut Random, make: Make, mut job: Job, spans: &[(u16, u16)]) -> Job {
    for &(start, end) in spans {
        let candidate = Candidate {
            start,
            end,
            kind: random.below(3) as u8,
            extra: cost(random, make),
            id: random.bits() as u32,
            cost: cost(random, make),
            left_id: random.below(job.height as usize) as u16,
            right_id: random.below(job.width as usize) as u16,
        };
        job.push(candidate);
    }
    job.mode = match make {
        Make::Lengths => 1,
        _ => random.below(2) as u32,
    };
    job.penalty = penalty(random, make, spans);
    job
}

/// A text of so many characters.
fn text(random: &mut Random, make: Make, n: usize) -> String {
    match make {
        Make::Scripts => scripts(random, n),
        Make::Lengths => {
            let family = random.one_of(&[Family::Kanji, Family::Edge, Family::Mixed]);
            texts::of_characters(random, family, n)
        }
        _ => {
            let family = random.one_of(&FAMILIES);
            texts::of_characters(random, family, n)
        }
    }
}

/// Turns of one to six characters of one script.
fn scripts(random: &mut Random, n: usize) -> String {
    let mut text = Vec::new();
    while text.len() < n {
        let (low, high) = random.one_of(&[
            (0x4E00, 0x9FAF),
            (0x3041, 0x3093),
            (0x30A1, 0x30FC),
            (0x61, 0x7A),
            (0x30, 0x39),
            (0x1F600, 0x1F64F),
        ]);
        let turn = 1 + random.below(6);
        let mut letter = || char::from_u32(random.from_to(low, high)).expect("no surrogate");
        text.extend((0..turn).map(|_| letter()));
    }
    text.into_iter().take(n).collect()
}

/// An entry's cost, an extra or a joint.
fn cost(random: &mut Random, make: Make) -> i16 {
    match make {
        Make::Ties => random.one_of(&[0, 0, 0, 0, -1, 1]),
        Make::Extremes => random.one_of(&COST_EDGES),
        _ => match random.below(4) {
            0 => random.bits() as i16,
            1 => random.one_of(&[0, 0, -1, 1]),
            _ => random.below(2_000) as i16 - 500,
        },
    }
}

fn lay_matrix(random: &mut Random, make: Make, job: &mut Job) {
    let (height, width) = match random.below(4) {
        0 => (1, 1),
        1 => (1 + random.below(30), 1),
        2 => (1, 1 + random.below(30)),
        _ => (1 + random.below(9), 1 + random.below(9)),
    };
    (job.height, job.width) = (height as u32, width as u32);
    job.matrix = (0..height * width).map(|_| cost(random, make)).collect();
}

/// Spans in the order of their starts, within n characters; n is not 0.
fn spans(random: &mut Random, make: Make, text: &str, n: usize, c: usize) -> Vec<(u16, u16)> {
    let mut spans = match make {
        Make::Sparse => Vec::new(),
        _ => cover(random, n, c),
    };
    let turns = turns(text);
    let longest = match random.below(4) {
        0 => n,
        _ => n.min(4),
    };
    while spans.len() < c {
        let start = random.below(n);
        let end = n.min(start + 1 + random.below(longest));
        let along = make == Make::Scripts && random.below(2) == 0;
        spans.push((start, if along { turns[start] } else { end }));
    }
    if make == Make::NoPath {
        let gap = 1 + random.below(n);
        spans.retain(|&(start, end)| !(start < gap && gap <= end));
    }
    let order = random.different(spans.len(), spans.len());
    let mut spans: Vec<(usize, usize)> = order.into_iter().map(|i| spans[i]).collect();
    spans.sort_by_key(|span| span.0);
    let narrow = |(start, end)| (start as u16, end as u16);
    spans.into_iter().map(narrow).collect()
}

/// At most c words that lead from 0 to n.
fn cover(random: &mut Random, n: usize, c: usize) -> Vec<(usize, usize)> {
    if c == 0 {
        return Vec::new();
    }
    let words = 1 + random.below(n.min(c));
    let mut cuts = random.different(words - 1, n - 1);
    cuts.sort_unstable();
    let inner = cuts.iter().map(|cut| cut + 1);
    let starts: Vec<usize> = [0].into_iter().chain(inner).collect();
    let ends = starts.iter().copied().skip(1).chain([n]);
    starts.iter().copied().zip(ends).collect()
}

/// For each position, where its turn ends of kanji or of other characters of one length.
fn turns(text: &str) -> Vec<usize> {
    let sort = |character: char| (is_kanji(character), character.len_utf8());
    let sorts: Vec<(bool, usize)> = text.chars().map(sort).collect();
    let mut ends = vec![sorts.len(); sorts.len()];
    for i in (1..sorts.len()).rev() {
        ends[i - 1] = match sorts[i - 1] == sorts[i] {
            true => ends[i],
            false => i,
        };
    }
    ends
}

fn penalty(random: &mut Random, make: Make, spans: &[(u16, u16)]) -> Penalty {
    let threshold = |random: &mut Random| match make {
        Make::Extremes => random.one_of(&THRESHOLD_EDGES),
        Make::Lengths if !spans.is_empty() => {
            let (start, end) = random.one_of(spans);
            u32::from(end - start) - 1 + random.below(3) as u32
        }
        _ => random.below(8) as u32,
    };
    let price = |random: &mut Random| match make {
        Make::Ties => random.below(2) as u32,
        Make::Extremes => random.one_of(&PRICE_EDGES),
        _ => random.below(4_000) as u32,
    };
    Penalty {
        kanji_threshold: threshold(random),
        kanji_price: price(random),
        other_threshold: threshold(random),
        other_price: price(random),
    }
}

/// Damages a job in one place, in one of the ways that have an answer number, or tries to.
pub fn damage(random: &mut Random, job: &mut Job) {
    let n = job.characters() as u16;
    let beside = random.one_of(&[1, u32::MAX]);
    match random.below(12) {
        0 => job.text = texts::one_byte_changed(random, &job.text),
        1 => job.text = texts::ill_formed(random, &job.text),
        2 => uneven(random, job),
        3 => job.height = job.height.wrapping_add(beside),
        4 => job.width = random.one_of(&[0, 65_536, job.width.wrapping_add(beside)]),
        5 => one_more_or_less(random, &mut job.matrix, 0),
        6 => job.mode = random.one_of(&[0, 1, 2, 256, 65_536, u32::MAX]),
        7 => damage_penalty(random, &mut job.penalty),
        8 => damage_place(random, &mut job.kind, &[2, 3, 128, 255]),
        9 => damage_place(random, &mut job.start, &[0, 1, n, n + 1]),
        10 => damage_place(random, &mut job.end, &[0, 1, n, n + 1, 65_535]),
        _ => damage_id(random, job),
    }
}

fn damage_place<T: Copy>(random: &mut Random, row: &mut [T], values: &[T]) {
    if !row.is_empty() {
        row[random.below(row.len())] = random.one_of(values);
    }
}

fn damage_penalty(random: &mut Random, penalty: &mut Penalty) {
    let over = random.one_of(&[32_767, 32_768, 65_535, 65_536, 65_537, u32::MAX]);
    match random.below(4) {
        0 => penalty.kanji_threshold = over,
        1 => penalty.kanji_price = over,
        2 => penalty.other_threshold = over,
        _ => penalty.other_price = over,
    }
}

fn damage_id(random: &mut Random, job: &mut Job) {
    let most = job.entry.len() / 10;
    if most > 0 {
        let k = random.below(most);
        let (height, width) = (job.height as u16, job.width as u16);
        match random.below(2) {
            0 => job.set_left_id(k, random.one_of(&[height.wrapping_sub(1), height, 65_535])),
            _ => job.set_right_id(k, random.one_of(&[width.wrapping_sub(1), width, 65_535])),
        }
    }
}

/// Makes one of the candidate rows longer or shorter.
fn uneven(random: &mut Random, job: &mut Job) {
    match random.below(6) {
        0 => one_more_or_less(random, &mut job.start, 0),
        1 => one_more_or_less(random, &mut job.end, 1),
        2 => one_more_or_less(random, &mut job.kind, 0),
        3 => one_more_or_less(random, &mut job.extra, 0),
        4 => one_more_or_less(random, &mut job.entry, 0),
        _ => job.entry.extend([0; 10]),
    }
}

fn one_more_or_less<T: Copy>(random: &mut Random, row: &mut Vec<T>, value: T) {
    if random.below(2) == 0 || row.pop().is_none() {
        row.push(value);
    }
}
