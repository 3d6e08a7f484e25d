//! Makers of walks back, right and broken.

pub use crate::model::NONE;
use crate::random::Random;

/// What a walk back is given, but for the row it writes.
#[derive(Clone, Debug, Default)]
pub struct Walk {
    pub start: Vec<u16>,
    pub end: Vec<u16>,
    pub left: Vec<u16>,
    pub n: u32,
}

impl Walk {
    /// Rows from a list of candidates and their links.
    pub fn new(spans: &[(u16, u16)], left: &[u16], n: u32) -> Walk {
        Walk {
            start: spans.iter().map(|span| span.0).collect(),
            end: spans.iter().map(|span| span.1).collect(),
            left: left.to_vec(),
            n,
        }
    }

    /// The lengths and first places of the rows, for a message.
    pub fn shown(&self) -> String {
        let head = |row: &[u16]| format!("{} places {:?}", row.len(), &row[..row.len().min(12)]);
        let (start, end, left) = (head(&self.start), head(&self.end), head(&self.left));
        format!("n {}, start {start}, end {end}, left {left}", self.n)
    }
}

/// A walk with only right links, and the words it has to give.
#[derive(Clone, Debug)]
pub struct Chain {
    pub walk: Walk,
    pub words: Vec<u16>,
}

/// So many words over n characters, their numbers in no order among c candidates. Where the walk
/// does not lead, anything stands. There are at most n words and c words, and none only if n is 0.
pub fn right(random: &mut Random, n: usize, c: usize, words: usize) -> Chain {
    let mut walk = anything(random, n, c);
    let numbers = random.different(words, c);
    let mut cuts = random.different(words.saturating_sub(1), n.max(1) - 1);
    cuts.sort_unstable();
    let mut position = 0;
    let mut entry = 0;
    for (i, &candidate) in numbers.iter().enumerate() {
        walk.start[candidate] = position;
        position = cuts.get(i).map_or(n, |cut| cut + 1) as u16;
        walk.end[candidate] = position;
        walk.left[candidate + 1] = entry;
        entry = candidate as u16 + 1;
    }
    walk.left[c + 1] = entry;
    let words = numbers.iter().map(|&candidate| candidate as u16).collect();
    Chain { walk, words }
}

/// Rows of the right lengths with any numbers in them.
pub fn wild(random: &mut Random, n: usize, c: usize) -> Walk {
    let mut row = |places| (0..places).map(|_| random.bits() as u16).collect();
    Walk {
        start: row(c),
        end: row(c),
        left: row(c + 2),
        n: n as u32,
    }
}

/// Rows of the right lengths with anything in them, mostly near what could be right.
pub fn anything(random: &mut Random, n: usize, c: usize) -> Walk {
    let mut place = |usual| match random.below(8) {
        0 => random.bits() as u16,
        _ => random.below(usual) as u16,
    };
    let mut row = |places, usual| (0..places).map(|_| place(usual)).collect();
    Walk {
        start: row(c, n + 2),
        end: row(c, n + 2),
        left: row(c + 2, c + 3),
        n: n as u32,
    }
}

/// Candidates of few characters whose links lead, nearly always, to one that ends where they
/// start: long walks that sometimes break. Links go up and down in number.
pub fn nearly_right(random: &mut Random, n: usize, c: usize) -> Walk {
    let mut walk = anything(random, n, c);
    for k in 0..c {
        let start = random.below(n.max(1));
        walk.start[k] = start as u16;
        // Now and then a length of 0.
        walk.end[k] = (start + random.below(1_000).min(1 + random.below(3))) as u16;
    }
    let mut ending: Vec<Vec<u16>> = vec![Vec::new(); n + 4];
    for k in 0..c {
        ending[usize::from(walk.end[k])].push(k as u16 + 1);
    }
    for entry in 1..c + 2 {
        let position = walk.start.get(entry - 1).map_or(n, |&start| start.into());
        let fitting = &ending[position];
        if position == 0 {
            walk.left[entry] = 0;
        } else if !fitting.is_empty() && random.below(1_000) > 0 {
            walk.left[entry] = random.one_of(fitting);
        }
    }
    walk
}

/// Rows as a lattice leaves them: four candidates from each position, of one to four characters,
/// in the order of their starts, each linked to one that ends there.
pub fn lattice(random: &mut Random, n: usize) -> Walk {
    let mut spans = Vec::new();
    let mut left = vec![NONE];
    let mut ending: Vec<Vec<u16>> = vec![Vec::new(); n + 1];
    ending[0].push(0);
    for start in 0..n {
        for length in 1..=4 {
            let end = n.min(start + length);
            spans.push((start as u16, end as u16));
            left.push(random.one_of(&ending[start]));
            ending[end].push(spans.len() as u16);
        }
    }
    left.push(random.one_of(&ending[n]));
    Walk::new(&spans, &left, n as u32)
}

impl Chain {
    /// The entry reached after so many right links.
    fn entry_after(&self, links: usize) -> usize {
        match links {
            0 => self.walk.start.len() + 1,
            _ => usize::from(self.words[self.words.len() - links]) + 1,
        }
    }

    /// The position reached after so many right links.
    fn position_after(&self, links: usize) -> u16 {
        match links {
            0 => self.walk.n as u16,
            _ => self.walk.start[self.entry_after(links) - 1],
        }
    }

    /// The same walk, broken in some way at the link that comes after so many right ones.
    pub fn broken_after(&self, random: &mut Random, links: usize) -> Walk {
        let mut walk = self.walk.clone();
        let c = walk.start.len();
        let from = self.entry_after(links);
        if c == 0 || random.below(5) == 0 {
            let beyond = c as u16 + 1;
            let further = beyond + random.below(65_535 - c) as u16;
            walk.left[from] = random.one_of(&[beyond, beyond + 1, further, NONE]);
        } else if links == self.words.len() {
            // At position 0, where no candidate can end.
            walk.left[from] = 1 + random.below(c) as u16;
        } else {
            break_word(random, &mut walk, from);
        }
        walk
    }

    /// The same walk, led back after so many right links (one or more) to where it has been.
    pub fn turned_back_after(&self, random: &mut Random, links: usize) -> Walk {
        let mut walk = self.walk.clone();
        let been = 1 + random.below(links);
        walk.left[self.entry_after(links)] = self.entry_after(been) as u16;
        walk
    }

    /// The same walk with two candidates that are no words put in after so many right links: the
    /// first ends there and starts further on or at the same place, and they lead to one another.
    pub fn circle_after(&self, random: &mut Random, links: usize) -> Option<Walk> {
        let mut walk = self.walk.clone();
        let c = walk.start.len();
        let is_free = |&k: &usize| !self.words.contains(&(k as u16));
        let free: Vec<usize> = (0..c).filter(is_free).take(2).collect();
        let [up, down] = free[..] else { return None };
        let position = self.position_after(links);
        let further = position + random.below(3) as u16;
        (walk.end[up], walk.start[up]) = (position, further);
        (walk.end[down], walk.start[down]) = (further, position);
        walk.left[self.entry_after(links)] = up as u16 + 1;
        // Half of them lead to themselves.
        let next = if random.below(2) == 0 { up } else { down };
        walk.left[up + 1] = next as u16 + 1;
        walk.left[down + 1] = up as u16 + 1;
        Some(walk)
    }
}

/// Breaks the link from this entry to a word, or the next one.
fn break_word(random: &mut Random, walk: &mut Walk, from: usize) {
    let word = usize::from(walk.left[from]) - 1;
    let (start, end) = (walk.start[word], walk.end[word]);
    match random.below(4) {
        0 => walk.left[from] = 0,
        1 => walk.end[word] = another(random, end),
        2 => walk.start[word] = random.one_of(&[end, end + 1, NONE]),
        // Where the start is still below the end, the next link is the broken one.
        _ => walk.start[word] = another(random, start),
    }
}

/// The number after this one, the one before it, or any other but itself.
fn another(random: &mut Random, number: u16) -> u16 {
    let further = 1 + random.below(65_535) as u16;
    number.wrapping_add(random.one_of(&[1, u16::MAX, further]))
}
