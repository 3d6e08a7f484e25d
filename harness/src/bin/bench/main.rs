//! Times the library in one process with others that do the same jobs: the character table and the
//! walk back beside plain Rust, the whole job beside the Rust itself.

mod characters;
mod clock;
mod segment;
mod times;
mod walk_back;

use harness::random::Random;

fn main() {
    let mut random = Random::new(18);
    characters::bench(&mut random);
    walk_back::bench(&mut random);
    segment::bench(&mut random);
}
