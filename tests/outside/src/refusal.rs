//! A refusal: its number, and the place in a text that is to blame.

/// Line and column count from 1; both are 0 where no line is to blame.
#[derive(Clone, Copy, Debug, PartialEq, Eq)]
pub struct Refusal {
    pub number: u32,
    pub line: usize,
    pub column: usize,
}

impl From<u32> for Refusal {
    /// A refusal that is of no line.
    fn from(number: u32) -> Refusal {
        Refusal {
            number,
            line: 0,
            column: 0,
        }
    }
}
