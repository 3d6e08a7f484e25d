//! Calls the library on guarded rows and compares everything it could have changed.

pub mod characters;
pub mod lent;
pub mod segment;
pub mod walk_back;

use std::fmt::Debug;

/// How many places stand before and behind every lent part.
pub const GUARD: usize = 4;

/// What a row holds before a call: values that no right answer has, each place its own.
pub trait Place: Copy + PartialEq + Debug {
    fn pattern(salt: u64, place: usize) -> Self;
}

impl Place for u8 {
    fn pattern(salt: u64, place: usize) -> u8 {
        0x80 | (salt as u8).wrapping_add((place as u8).wrapping_mul(0x9D))
    }
}

/// Even, so that it is never "none".
impl Place for u16 {
    fn pattern(salt: u64, place: usize) -> u16 {
        0x8000 | ((salt as u16).wrapping_add((place as u16).wrapping_mul(0x9E37)) & 0xFFFE)
    }
}

/// Rows of extras and of matrix values are only read; their guards are given.
impl Place for i16 {
    fn pattern(salt: u64, place: usize) -> i16 {
        u16::pattern(salt, place) as i16
    }
}

/// Below every cost.
impl Place for i32 {
    fn pattern(salt: u64, place: usize) -> i32 {
        (u32::pattern(salt, place) & 0xBFFF_FFFF) as i32
    }
}

impl Place for u32 {
    fn pattern(salt: u64, place: usize) -> u32 {
        0x8000_0000 | (salt as u32).wrapping_add((place as u32).wrapping_mul(0x9E37_79B9))
    }
}

/// A row that is lent as the middle part of a larger buffer.
#[derive(Default)]
pub struct Row<T> {
    whole: Vec<T>,
    before: [T; GUARD],
    behind: [T; GUARD],
}

impl<T: Place> Row<T> {
    /// Makes a row of so many places, all of them and the guards filled with the pattern.
    pub fn refill(&mut self, places: usize, salt: u64) {
        self.before = std::array::from_fn(|i| T::pattern(salt, i));
        self.behind = std::array::from_fn(|i| T::pattern(salt, GUARD + places + i));
        self.whole.clear();
        self.whole
            .extend((0..places + 2 * GUARD).map(|i| T::pattern(salt, i)));
    }

    /// Lays a row that is only to be read between guards that mislead whoever reads them.
    pub fn lay_out(&mut self, contents: &[T], guard: T) {
        self.before = [guard; GUARD];
        self.behind = [guard; GUARD];
        self.whole.clear();
        self.whole.extend_from_slice(&self.before);
        self.whole.extend_from_slice(contents);
        self.whole.extend_from_slice(&self.behind);
    }

    /// The part that is lent.
    pub fn lent(&self) -> &[T] {
        &self.whole[GUARD..self.whole.len() - GUARD]
    }

    /// The part that is lent, to be written.
    pub fn lent_mut(&mut self) -> &mut [T] {
        let end = self.whole.len() - GUARD;
        &mut self.whole[GUARD..end]
    }

    /// The first difference from the places expected and from the guards, in words.
    pub fn difference(&self, expected: &[T]) -> Option<String> {
        let lent = self.lent();
        if lent != expected {
            let i = (0..lent.len()).find(|&i| lent[i] != expected[i])?;
            return Some(format!(
                "place {i} of {} holds {:?} and not {:?}",
                lent.len(),
                lent[i],
                expected[i]
            ));
        }
        let behind = self.whole.len() - GUARD;
        let guards = (0..GUARD).chain(behind..behind + GUARD);
        let laid = self.before.iter().chain(&self.behind);
        let changed = |(i, laid): &(usize, &T)| self.whole[*i] != **laid;
        guards.zip(laid).find(changed).map(|(i, _)| {
            let lent = lent.len();
            format!("guard place {i} changed (the row has {lent} places from {GUARD} on)")
        })
    }
}

/// Every list of so many of these values.
pub fn every<T: Copy>(places: usize, values: &[T]) -> Vec<Vec<T>> {
    let mut lists = vec![Vec::new()];
    for _ in 0..places {
        let with = |&value| {
            lists
                .iter()
                .map(move |list: &Vec<T>| [&list[..], &[value]].concat())
        };
        lists = values.iter().flat_map(with).collect();
    }
    lists
}

/// Does both halves of a work, the second in a thread of its own.
pub fn in_halves<R: Send>(half: impl Fn(usize) -> R + Sync) -> [R; 2] {
    std::thread::scope(|scope| {
        let other = scope.spawn(|| half(1));
        let first = half(0);
        let second = other.join();
        [first, second.expect("the second thread found a difference")]
    })
}

/// A text's length and first bytes, for a message.
pub fn shown(text: &[u8]) -> String {
    let head: Vec<String> = text.iter().take(24).map(|b| format!("{b:02X}")).collect();
    let more = if text.len() > 24 { " .." } else { "" };
    format!("text of {} bytes [{}{more}]", text.len(), head.join(" "))
}
