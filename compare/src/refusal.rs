//! "A refusal returns number and place."

/// A refusal's number and its places; a place it does not have is 0.
#[derive(Clone, Copy, Debug, PartialEq, Eq)]
pub struct Refusal {
    pub number: u8,
    pub first: u64,
    pub second: u64,
    pub third: u64,
}

impl Refusal {
    /// "Later numbers have place 0 unless stated."
    pub fn bare(number: u8) -> Refusal {
        Refusal::at(number, 0)
    }

    pub fn at(number: u8, first: usize) -> Refusal {
        Refusal::at_two(number, first, 0)
    }

    pub fn at_two(number: u8, first: usize, second: usize) -> Refusal {
        Refusal {
            number,
            first: first as u64,
            second: second as u64,
            third: 0,
        }
    }
}
