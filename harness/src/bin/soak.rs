//! Compares jobs of all classes with the Rust for so many seconds, on two threads.
//!
//! The arguments are the seconds and the seed. The status is 1 on a mismatch, or without the source.

use harness::check::in_halves;
use harness::differential::classes::CLASSES;
use harness::differential::{Differential, Tally};
use harness::library::segment::segment;
use std::process::ExitCode;
use std::time::{Duration, Instant};

/// Rounds over all classes until the time is up. The first mismatch of each class is printed.
fn soak(seed: u64, half: usize, until: Instant) -> Differential {
    // No two seeds share a thread's jobs.
    let own = seed.wrapping_mul(2).wrapping_add(half as u64);
    let differential = Differential::new(segment, own);
    let mut differential = differential.expect("the source is there");
    while Instant::now() < until {
        for class in CLASSES {
            if let Some(mismatch) = differential.jobs(class, class.in_a_round()) {
                println!("seed {seed}: {mismatch}");
            }
        }
    }
    differential
}

/// Prints how many jobs were compared, class by class, and says of all of them.
fn told(halves: [Differential; 2]) -> Tally {
    let mut all = Tally::default();
    println!("{:>12} {:>10}  class", "jobs", "mismatches");
    for class in CLASSES {
        let [mut both, other] = halves.each_ref().map(|half| half.tallies[class as usize]);
        both.add(other);
        println!("{:>12} {:>10}  {class:?}", both.jobs, both.mismatches);
        all.add(both);
    }
    all
}

fn main() -> ExitCode {
    let mut arguments = std::env::args().skip(1);
    let mut number = |name| -> u64 {
        let given = arguments.next().and_then(|given| given.parse().ok());
        given.unwrap_or_else(|| panic!("{name}: a number is wanted"))
    };
    let (seconds, seed) = (number("seconds"), number("seed"));
    if !oracle::PRESENT {
        eprintln!(
            "soak: the Rust's source is not there. LINDERA_SRC names the folder that has its src."
        );
        return ExitCode::FAILURE;
    }
    let until = Instant::now() + Duration::from_secs(seconds);
    let halves = in_halves(|half| soak(seed, half, until));
    let Tally { jobs, mismatches } = told(halves);
    println!("{jobs} jobs compared, {mismatches} mismatches, seed {seed}");
    ExitCode::from(u8::from(mismatches > 0))
}
