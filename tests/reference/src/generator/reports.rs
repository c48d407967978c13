//! The kind `reports`: the stream of `samples` with a report in three of four lines behind COPR.

use super::samples::Samples;
use super::Source;

/// A setup, a store and COPR come first.
const FIRST: u64 = 3;

pub struct Reports {
    samples: Samples,
    lines: u64,
}

impl Reports {
    pub fn new(seed: u64) -> Reports {
        Reports { samples: Samples::new(seed), lines: 0 }
    }
}

impl Source for Reports {
    fn next_line(&mut self) -> Vec<u8> {
        self.lines += 1;
        if self.lines <= FIRST || self.lines % 4 == 0 {
            return self.samples.next_line();
        }
        b"report=0".to_vec()
    }
}
