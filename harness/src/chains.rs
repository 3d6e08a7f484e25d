//! Every chain and every path of a job, one by one: document 01's plain sums, with no least in them.
//! What comes back for the job is held to demand 3 over these sums.

use crate::jobs::Job;
use crate::library::segment::Given;
use crate::library::Answer;
use crate::model::segment::{entries, joint, word_id, Entry, Written, GREATEST_COST, LEAST_COST};
use crate::model::NONE;
use std::cmp::Ordering;

/// A chain or a path: its words by their candidate numbers, in sentence order, and its cost.
#[derive(Debug, PartialEq, Eq)]
pub struct Chain {
    pub words: Vec<usize>,
    pub cost: i64,
}

/// All chains and all paths of a job. There are at most 2 to the power of c of each.
pub struct Chains {
    pub chains: Vec<Chain>,
    pub paths: Vec<Chain>,
    entries: Vec<Entry>,
}

impl Chains {
    /// Those of a job that has passed the tests.
    pub fn of(given: &Given) -> Chains {
        let text = std::str::from_utf8(given.text).expect("the text has passed its test");
        let text: Vec<char> = text.chars().collect();
        let entries = entries(given, &text);
        let (mut chains, mut paths) = (Vec::new(), Vec::new());
        for words in lists(&entries) {
            if last(&entries, &words).end == text.len() {
                let cost = path_cost(given, &entries, &words);
                let words = words.clone();
                paths.push(Chain { words, cost });
            }
            if !words.is_empty() {
                let cost = chain_cost(given, &entries, &words);
                chains.push(Chain { words, cost });
            }
        }
        Chains {
            chains,
            paths,
            entries,
        }
    }

    /// The paths of least cost.
    pub fn least_paths(&self) -> impl Iterator<Item = &Chain> {
        let least = self.paths.iter().map(|path| path.cost).min();
        let is_least = move |path: &&Chain| Some(path.cost) == least;
        self.paths.iter().filter(is_least)
    }

    /// Holds an answer 0 or 12 and the rows that came with it to demand 3 and to the rule for ties:
    /// from every reached word the left links lead along the first of all chains to it.
    pub fn hold(&self, job: &Job, answer: Answer, rows: &Written) {
        let c = job.candidates();
        let returned = Returned {
            job,
            rows,
            entries: &self.entries,
        };
        for k in 0..c {
            let to_k = |chain: &&Chain| chain.words.last() == Some(&k);
            if let Some(chain) = returned.linked(k + 1, self.chains.iter().filter(to_k)) {
                let links = chain.words.len();
                let characters = usize::from(job.end[k]);
                assert!(links <= characters, "candidate {k}, {}", job.shown());
            }
        }
        let path = returned.linked(c + 1, self.paths.iter());
        let due = match path {
            None => Answer::refused(12, 0),
            Some(path) => Answer::done(path.words.len(), rows.cost[c + 1]),
        };
        assert_eq!(answer, due, "answer, {}", job.shown());
        if let Some(path) = path {
            returned.hold_words(&path.words);
        }
        for cost in rows.cost[..c + 2].iter().copied().map(i64::from) {
            let in_range = (LEAST_COST..=GREATEST_COST).contains(&cost);
            assert!(in_range, "cost {cost}, {}", job.shown());
        }
    }
}

/// Every list of candidates of which the first starts at 0 and each later one where the one before
/// ends. The first list has no words.
fn lists(entries: &[Entry]) -> Vec<Vec<usize>> {
    let c = entries.len() - 2;
    let mut lists = vec![Vec::new()];
    let mut next = 0;
    while next < lists.len() {
        let position = last(entries, &lists[next]).end;
        for k in (0..c).filter(|&k| entries[k + 1].start == position) {
            lists.push([&lists[next][..], &[k]].concat());
        }
        next += 1;
    }
    lists
}

/// The last of these words, or the start mark if there are none.
fn last<'a>(entries: &'a [Entry], words: &[usize]) -> &'a Entry {
    words.last().map_or(&entries[0], |&k| &entries[k + 1])
}

/// The joints from the start mark to the last word, the charge of every word but the last, and every
/// word's extra and word cost.
fn chain_cost(given: &Given, entries: &[Entry], words: &[usize]) -> i64 {
    let start_mark = &entries[0];
    let words = words.iter().map(|&k| &entries[k + 1]);
    let earlier = [start_mark].into_iter().chain(words.clone());
    let joints = earlier
        .zip(words.clone())
        .map(|(one, next)| joint(given, one, next));
    let charges = words.clone().rev().skip(1).map(|word| word.charge);
    let own = words.map(|word| word.own);
    joints.sum::<i64>() + charges.sum::<i64>() + own.sum::<i64>()
}

/// The same, with the last word's charge, if there is one, and the joint to the end mark. The start
/// mark is charged 0.
fn path_cost(given: &Given, entries: &[Entry], words: &[usize]) -> i64 {
    let (last, end_mark) = (last(entries, words), &entries[entries.len() - 1]);
    chain_cost(given, entries, words) + last.charge + joint(given, last, end_mark)
}

/// The lower cost first; of equals, both read from the last word to the first, that which has the
/// lower candidate number where they first differ.
fn order(one: &Chain, other: &Chain) -> Ordering {
    let backwards = || one.words.iter().rev().cmp(other.words.iter().rev());
    one.cost.cmp(&other.cost).then_with(backwards)
}

/// What came back for a job.
struct Returned<'a> {
    job: &'a Job,
    rows: &'a Written,
    entries: &'a [Entry],
}

impl Returned<'_> {
    /// The chain along an entry's left links, held against all chains that end in it, or along the end
    /// mark's against all paths: there is one exactly if it is reached, and it is the first of all.
    fn linked<'a>(
        &self,
        entry: usize,
        mut all: impl Iterator<Item = &'a Chain> + Clone,
    ) -> Option<&'a Chain> {
        let at = || format!("entry {entry}, {}", self.job.shown());
        let first = all.clone().min_by(|one, other| order(one, other));
        let is_reached = self.rows.left[entry] != NONE;
        assert_eq!(is_reached, first.is_some(), "reached, {}", at());
        let first = first?;

        let words = self.words_back(entry);
        let linked = all.clone().find(|chain| chain.words == words);
        let linked = linked.unwrap_or_else(|| panic!("{words:?} is no chain, {}", at()));
        let cost = i64::from(self.rows.cost[entry]);
        assert_eq!(cost, linked.cost, "cost of {words:?}, {}", at());
        let cheaper = all.find(|chain| chain.cost < cost);
        assert_eq!(cheaper, None, "cheaper than {words:?}, {}", at());
        assert_eq!(linked, first, "of equals the first, {}", at());
        Some(linked)
    }

    /// The words up to an entry, by the left links: each leads to an entry that ends where this one
    /// starts, and to the start mark exactly from 0.
    fn words_back(&self, entry: usize) -> Vec<usize> {
        let c = self.job.candidates();
        let mut words = Vec::new();
        let mut number = entry;
        while number > 0 {
            let left = usize::from(self.rows.left[number]);
            let at = || format!("link from {number} to {left}, {}", self.job.shown());
            let start = self.entries[number].start;
            assert!(left <= c, "{}", at());
            assert_eq!(self.entries[left].end, start, "{}", at());
            assert_eq!(left == 0, start == 0, "{}", at());
            if number <= c {
                words.push(number - 1);
            }
            number = left;
        }
        words.reverse();
        words
    }

    /// Holds the word rows to a path's words: these cover the text without gap or overlap, are no more
    /// than its characters, and their bytes one after the other are the text.
    fn hold_words(&self, words: &[usize]) {
        let (job, rows) = (self.job, self.rows);
        let n = job.characters();
        let starts = words.iter().map(|&k| usize::from(job.start[k]));
        let ends = words.iter().map(|&k| usize::from(job.end[k]));
        let positions = [0].into_iter().chain(ends.clone());
        let covers = positions.eq(starts.clone().chain([n]));
        assert!(covers && words.len() <= n, "{words:?}, {}", job.shown());

        let text = std::str::from_utf8(&job.text).expect("the text has passed its test");
        let offsets = text.char_indices().map(|(offset, _)| offset);
        let offsets: Vec<usize> = offsets.chain([text.len()]).collect();
        let mut bytes = Vec::new();
        for (i, ((&k, start), end)) in words.iter().zip(starts).zip(ends).enumerate() {
            let found = (rows.word_offset[i], rows.word_id[i], rows.word_kind[i]);
            let due = (offsets[start] as u32, word_id(&job.given(), k), job.kind[k]);
            assert_eq!(found, due, "word {i}, {}", job.shown());
            bytes.extend_from_slice(&job.text[rows.word_offset[i] as usize..offsets[end]]);
        }
        assert_eq!(bytes, job.text, "bytes of {words:?}, {}", job.shown());
    }
}

#[cfg(test)]
mod tests {
    use super::*;

    /// All chains and paths of a job, in any order, against those written out by hand.
    fn held(job: &Job, chains: &[(&[usize], i64)], paths: &[(&[usize], i64)]) {
        let found = Chains::of(&job.given());
        for (mut found, due) in [(found.chains, chains), (found.paths, paths)] {
            found.sort_by(|one, other| one.words.cmp(&other.words));
            let found = found.iter().map(|chain| (&chain.words[..], chain.cost));
            assert_eq!(Vec::from_iter(found), due);
        }
    }

    // Document 01's examples A, B, C, D and E, their chains and paths added up by hand.
    #[test]
    fn the_chains_of_the_examples() {
        held(&Job::new(b"").matrix(1, 1, &[7]), &[], &[(&[], 7)]);
        let b = Job::example_b();
        held(
            &b,
            &[
                (&[0], 300),
                (&[0, 2], 300 + 200),
                (&[0, 2, 4], 300 + 200 + 120),
                (&[0, 3], 300 + 150),
                (&[1], 100),
                (&[1, 4], 100 + 120),
            ],
            &[(&[0, 2, 4], 620), (&[0, 3], 450), (&[1, 4], 220)],
        );
        // A word of two kanji is charged 500 on the left of a joint, the last word at the end mark.
        held(
            &b.decompose([1, 500, 7, 0]),
            &[
                (&[0], 300),
                (&[0, 2], 300 + 200),
                (&[0, 2, 4], 300 + 200 + 120),
                (&[0, 3], 300 + 150),
                (&[1], 100),
                (&[1, 4], 100 + 500 + 120),
            ],
            &[(&[0, 2, 4], 620), (&[0, 3], 450 + 500), (&[1, 4], 720)],
        );
        let d = Job::of(b"a", &[(0, 1, 4), (0, 1, 4)]);
        held(&d, &[(&[0], 4), (&[1], 4)], &[(&[0], 4), (&[1], 4)]);
        held(&Job::of(b"ab", &[(0, 1, 8)]), &[(&[0], 8)], &[]);
    }
}
