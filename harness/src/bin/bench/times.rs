//! Times jobs that are done in three ways by turns.

use crate::clock::nanoseconds;
use std::borrow::Borrow;
use std::hint::black_box;

/// So many rounds only warm up.
const WARMING: usize = 10;

const ROUNDS: usize = 600;

/// One way to do a job J into rows R; it returns the answer's count.
pub type Way<J, R> = fn(&J, &mut R) -> u32;

/// Each way's nanoseconds, round by round, as long as there are to be more. A round is one pass over
/// all jobs, so that no job comes twice in a row and none is learnt by heart.
pub fn rounds<J: ?Sized, R: ?Sized>(
    jobs: &[impl Borrow<J>],
    ways: [Way<J, R>; 3],
    rows: &mut R,
    more: impl Fn(usize) -> bool,
) -> [Vec<f64>; 3] {
    let mut times = [const { Vec::new() }; 3];
    for round in (0..).take_while(|&round| more(round)) {
        for turn in 0..3 {
            let which = (round + turn) % 3;
            let start = nanoseconds();
            for job in jobs {
                black_box(ways[which](black_box(job.borrow()), rows));
            }
            times[which].push((nanoseconds() - start) as f64);
        }
    }
    times
}

/// Each way's nanoseconds for each unit, sorted.
pub fn times<J: ?Sized, R: ?Sized>(
    jobs: &[impl Borrow<J>],
    units: usize,
    ways: [Way<J, R>; 3],
    rows: &mut R,
) -> [Vec<f64>; 3] {
    rounds(jobs, ways, rows, |round| round < WARMING);
    let times = rounds(jobs, ways, rows, |round| round < ROUNDS);
    times.map(|all| sorted(all.into_iter().map(|time| time / units as f64)))
}

pub fn sorted(values: impl Iterator<Item = f64>) -> Vec<f64> {
    let mut values: Vec<f64> = values.collect();
    values.sort_by(f64::total_cmp);
    values
}

/// The value below which so many tenths of the sorted ones lie; five of them make the median.
pub fn at_tenths(sorted: &[f64], tenths: usize) -> f64 {
    sorted[sorted.len() * tenths / 10]
}

/// Two lines: the median and the fast tenth, and the library's ratios to the other two ways.
pub fn print(label: &str, times: [Vec<f64>; 3]) {
    for (figure, tenths) in [("median", 5), ("10 %", 1)] {
        let [library, one, other] = times.each_ref().map(|all| at_tenths(all, tenths));
        println!(
            "{label}  {figure:6} {library:8.3} {one:8.3} {other:8.3} {:9.2} {:9.2}",
            library / one,
            library / other,
        );
    }
}
