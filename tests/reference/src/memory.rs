//! The memory lent to the line: a hundred settings records and tallies.

use crate::event::{Settings, CODES};
use crate::tally::Tally;

#[derive(Clone)]
pub struct Memory {
    pub settings: [Settings; CODES as usize],
    pub tallies: [Tally; CODES as usize],
}

impl Memory {
    /// Full lengths, all zeros.
    pub fn fresh() -> Memory {
        Memory {
            settings: [Settings::default(); CODES as usize],
            tallies: [Tally::default(); CODES as usize],
        }
    }
}
