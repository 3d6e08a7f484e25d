//! The whole job, beside the Rust itself.

mod ways;

use crate::times::{at_tenths, rounds, sorted};
use harness::jobs::{self, Job};
use harness::random::Random;
use oracle::Matrix;
use std::time::{Duration, Instant};
use ways::{agree, Handed, Sides, WAYS};

/// Lindera's own numbers.
const DECOMPOSE: [u32; 4] = [2, 3_000, 7, 1_700];

/// The machine's own pace changes from second to second, so the sizes of a table take so many turns.
const TURNS: usize = 5;

/// About how long a turn is, how many rounds it has at least, and how many only warm up before it.
const TURN: Duration = Duration::from_millis(200);
const LEAST_ROUNDS: usize = 10;
const WARMING: usize = 2;

/// So many jobs, all of n characters, c candidates and the same matrix.
#[derive(Clone, Copy)]
struct Size {
    jobs: usize,
    n: usize,
    c: usize,
    ids: usize,
}

impl Size {
    fn of(n: usize, c: usize) -> Size {
        Size {
            jobs: 16,
            n,
            c,
            ids: 64,
        }
    }
}

/// The jobs of a size in one mode.
struct Jobs {
    mode: &'static str,
    jobs: Vec<Job>,
    joints: usize,
    /// By turn, and then by way.
    times: Vec<[Vec<f64>; 3]>,
}

impl Jobs {
    fn new(mode: &'static str, jobs: Vec<Job>) -> Jobs {
        Jobs {
            mode,
            jobs,
            joints: 0,
            times: Vec::new(),
        }
    }
}

/// The jobs of a size in both modes, and what is used for all of them.
struct Both {
    size: Size,
    matrix: Matrix,
    modes: [Jobs; 2],
    sides: Sides,
}

impl Both {
    /// Nothing where the Rust's source is missing.
    fn new(random: &mut Random, size: Size) -> Option<Both> {
        let Size { jobs, n, c, ids } = size;
        let values = jobs::address_matrix(random, ids);
        let jobs = (0..jobs).map(|_| jobs::address(random, n, c, ids));
        let normal: Vec<Job> = jobs.collect();
        let decompose = normal.iter().map(|job| job.clone().decompose(DECOMPOSE));
        let decompose: Vec<Job> = decompose.collect();
        Some(Both {
            size,
            sides: Sides::new(n, c)?,
            matrix: Matrix::new(ids as u32, ids as u32, &values),
            modes: [
                Jobs::new("Normal", normal),
                Jobs::new("Decompose", decompose),
            ],
        })
    }

    /// One turn of the jobs of one mode.
    fn turn(&mut self, mode: usize) {
        let (mode, sides) = (&mut self.modes[mode], &mut self.sides);
        let handed = (mode.jobs.iter()).map(|job| Handed::of(job, self.size.ids, &self.matrix));
        let handed: Vec<Handed> = handed.collect();
        mode.joints = handed.iter().map(|job| agree(job, sides)).sum();
        rounds(&handed, WAYS, sides, |round| round < WARMING);
        let start = Instant::now();
        mode.times.push(rounds(&handed, WAYS, sides, |round| {
            round < LEAST_ROUNDS || start.elapsed() < TURN
        }));
    }
}

fn median(values: impl Iterator<Item = f64>) -> f64 {
    at_tenths(&sorted(values), 5)
}

/// One line of a table.
fn print(Size { n, c, .. }: Size, mode: &Jobs) {
    let (many, joints) = (mode.jobs.len(), mode.joints);
    print!("{n:10} {c:6} {:7}  {:9}", joints / many, mode.mode);
    let times = [0, 1, 2].map(|way| mode.times.iter().flat_map(move |turn| &turn[way]));
    let [library, cleared, rust] = times.each_ref().map(|all| median(all.clone().copied()));
    for time in [library, cleared, rust] {
        print!(" {:9.0}", time / many as f64);
    }
    for time in [library, rust] {
        print!(" {:7.2}", time / joints as f64);
    }
    let [ours @ .., theirs] = &times;
    for ours in ours {
        let pairs = ours.clone().zip(theirs.clone());
        let ratios = sorted(pairs.map(|(ours, theirs)| ours / theirs));
        let [median, low, high] = [5, 1, 9].map(|tenths| at_tenths(&ratios, tenths));
        print!("  {median:6.3} {low:5.2} {high:5.2}");
    }
    println!("  {:6}", times[0].clone().count());
}

fn head() {
    println!("\nWhole job: nanoseconds for each job and for each joint, and the library's ratio to the Rust itself.");
    println!("library: one call, all tests of the job among it, into rows as the job before left them; cleared: the caller clears");
    println!("all ten rows first. Rust: its lattice cleared, characters, relaxation, end mark, walk back, and no tests. Times are");
    println!("medians over the rounds, of the time that the thread has run. A ratio is that of two times of one round: the median,");
    println!("and where the outer tenths begin.");
}

fn columns(title: &str) {
    println!("\n{title}");
    println!("                                                      for each job  for each joint  library/Rust        cleared/Rust");
    println!("characters  cands  joints  mode        library   cleared      Rust library    Rust  median  10 %  90 %  median  10 %  90 %  rounds");
}

/// Times all sizes in both modes and prints them.
fn table(random: &mut Random, title: &str, sizes: &[Size]) -> Vec<Both> {
    let both = sizes.iter().map(|&size| Both::new(random, size)).collect();
    let mut all: Vec<Both> = Option::expect(both, "the source is there");
    for _ in 0..TURNS {
        for mode in [0, 1] {
            all.iter_mut().for_each(|both| both.turn(mode));
        }
    }
    columns(title);
    for both in &all {
        both.modes.iter().for_each(|mode| print(both.size, mode));
    }
    all
}

/// How much longer the larger jobs take in one of the ways: the median of the turns.
fn grown(small: &Jobs, large: &Jobs, way: usize) -> f64 {
    let [small, large] = [small, large].map(|jobs| {
        let turns = jobs.times.iter();
        turns.map(move |turn| median(turn[way].iter().copied()))
    });
    median(large.zip(small).map(|(large, small)| large / small))
}

/// What doubling the size costs, each line of the ladder over the one before.
fn growth(ladder: &[Both]) {
    println!("\nHow the time of a job grows, over the size before.");
    println!("                  Normal                    Decompose");
    println!("  characters      joints library    Rust    joints library    Rust");
    for (small, large) in ladder.iter().zip(&ladder[1..]) {
        print!("{:4} to {:4}", small.size.n, large.size.n);
        for (small, large) in small.modes.iter().zip(&large.modes) {
            let joints = large.joints as f64 / small.joints as f64;
            let [library, rust] = [0, 2].map(|way| grown(small, large, way));
            print!("    {joints:8.2} {library:7.2} {rust:7.2}");
        }
        println!();
    }
}

pub fn bench(random: &mut Random) {
    if !oracle::PRESENT {
        println!("\nWhole job: cannot be run, the Rust's source is not there. LINDERA_SRC names the folder that has its src.");
        return;
    }
    head();
    let title = "512 characters and 2,048 candidates; here and below 16 jobs in rotation and a matrix of 64 × 64.";
    table(random, title, &[Size::of(512, 2_048)]);

    let ladder = [64, 128, 256, 512, 1_024, 2_048, 4_096].map(|n| Size::of(n, 4 * n));
    growth(&table(
        random,
        "Four candidates for each character.",
        &ladder,
    ));

    let title = "From two to sixteen candidates for each of 512 characters.";
    let more = [1_024, 2_048, 4_096, 8_192].map(|c| Size::of(512, c));
    table(random, title, &more);

    let short = Size {
        jobs: 64,
        ..Size::of(18, 112)
    };
    table(random, "Short addresses, 64 jobs in rotation.", &[short]);

    let large = Size {
        ids: 1_316,
        ..Size::of(512, 2_048)
    };
    table(
        random,
        "A matrix of IPADIC's size, 1,316 × 1,316.",
        &[large],
    );
}
