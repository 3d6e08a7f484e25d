//! The places of a byte.

pub fn memchr_iter(byte: u8, bytes: &[u8]) -> impl Iterator<Item = usize> {
    let found = move |(place, &other): (usize, &u8)| (other == byte).then_some(place);
    bytes.iter().enumerate().filter_map(found)
}
