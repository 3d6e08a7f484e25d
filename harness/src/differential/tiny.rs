//! Every job of up to 3 characters and 3 candidates, by number: all lists of spans, word costs 0 and 1,
//! all ids of a matrix 2×2, four such matrices and four pairs of text and mode.

use crate::jobs::{every_list, Candidate, Job};

const MATRICES: [[i16; 4]; 4] = [[0, 0, 0, 0], [0, 1, 1, 0], [1, 0, 0, 1], [0, 0, 1, 1]];

/// Three characters, of which a job takes the first, and for Decompose K, P, O and Q.
const SETTINGS: [([char; 3], Option<[u32; 4]>); 4] = [
    (['東', 'a', '東'], None),
    (['東', '東', '東'], Some([0, 1, 1, 2])),
    (['東', 'a', '東'], Some([1, 1, 1, 2])),
    (['a', '東', '東'], Some([1, 2, 2, 1])),
];

/// A candidate has a cost of two, a left id of two and a right id of two.
const EACH: usize = 8;

pub struct Tiny {
    lists: Vec<List>,
    jobs: usize,
}

/// A list of spans over n characters, and the number of its first job.
struct List {
    first: usize,
    n: usize,
    spans: Vec<(u16, u16)>,
}

impl Default for Tiny {
    fn default() -> Tiny {
        let (mut lists, mut jobs) = (Vec::new(), 0);
        for (n, c) in (0..=3).flat_map(|n| (0..=3).map(move |c| (n, c))) {
            for spans in every_list(n, c) {
                lists.push(List {
                    first: jobs,
                    n: n.into(),
                    spans,
                });
                jobs += MATRICES.len() * SETTINGS.len() * EACH.pow(c as u32);
            }
        }
        Tiny { lists, jobs }
    }
}

impl Tiny {
    /// How many there are.
    pub fn jobs(&self) -> usize {
        self.jobs
    }

    /// The job of this number, which is below how many there are.
    pub fn job(&self, number: usize) -> Job {
        let at = self.lists.partition_point(|list| list.first <= number) - 1;
        let List { first, n, spans } = &self.lists[at];
        let mut rest = number - first;
        let mut digit = |base| {
            let digit = rest % base;
            rest /= base;
            digit
        };
        let matrix = MATRICES[digit(MATRICES.len())];
        let (text, penalty) = SETTINGS[digit(SETTINGS.len())];
        let text = String::from_iter(&text[..*n]);
        let mut job = Job::new(text.as_bytes()).matrix(2, 2, &matrix);
        for (k, &(start, end)) in spans.iter().enumerate() {
            job.push(Candidate {
                start,
                end,
                id: 1_000 + k as u32,
                cost: digit(2) as i16,
                left_id: digit(2) as u16,
                right_id: digit(2) as u16,
                ..Candidate::default()
            });
        }
        match penalty {
            Some(penalty) => job.decompose(penalty),
            None => job,
        }
    }
}
