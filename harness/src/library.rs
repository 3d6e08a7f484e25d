//! The C library's face: the answer, and a safe call for each operation.

pub mod characters;
pub mod segment;
pub mod walk_back;

/// `jumelavorp_answer` of the C header.
#[repr(C)]
#[derive(Clone, Copy, Debug, PartialEq, Eq)]
pub struct Answer {
    pub number: u32,
    pub place: u32,
    pub count: u32,
    pub cost: i32,
}

impl Answer {
    /// Answer 0.
    pub fn done(count: usize, cost: i32) -> Answer {
        Answer {
            number: 0,
            place: 0,
            count: number(count),
            cost,
        }
    }

    /// Any other answer: count and cost are 0 in all of them.
    pub fn refused(number_given: u32, place: usize) -> Answer {
        Answer {
            number: number_given,
            place: number(place),
            count: 0,
            cost: 0,
        }
    }
}

fn number(size: usize) -> u32 {
    u32::try_from(size).expect("a size of document 01 fits u32")
}
