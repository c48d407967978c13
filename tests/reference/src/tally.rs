//! One code's tally.

use crate::verdict::Verdict;

/// Classes 0 to 20.
pub const CLASSES: usize = 21;

#[derive(Clone, Copy, Debug, Default, PartialEq, Eq)]
pub struct Tally {
    /// How often each verdict was given, in mask order.
    pub counts: [i64; 8],
    /// Number of graded verdicts (n).
    pub number: i64,
    /// Sum of their nets (S).
    pub sum: i64,
    /// Sum of their nets squared (Q).
    pub squares: i64,
    /// 0 while there is no graded verdict.
    pub largest: i64,
    /// 0 while there is no graded verdict.
    pub smallest: i64,
    /// How many graded verdicts are in each class about the target at the verdict.
    pub classes: [i64; CLASSES],
}

impl Tally {
    /// The most verdicts one tally takes, all eight counts together.
    pub const LIMIT: i64 = 999_999;

    pub fn total(&self) -> i64 {
        self.counts.iter().sum()
    }

    /// Tallies a verdict, unless the limit is reached; says whether it did.
    pub fn add(&mut self, verdict: Verdict, net: i64, target: i64) -> bool {
        if self.total() >= Tally::LIMIT {
            return false;
        }
        self.counts[verdict as usize - 1] += 1;
        if verdict.is_graded() {
            self.add_net(net);
            self.classes[class(net, target)] += 1;
        }
        true
    }

    /// The first graded verdict sets both largest and smallest.
    fn add_net(&mut self, net: i64) {
        let first = self.number == 0;
        self.largest = if first { net } else { self.largest.max(net) };
        self.smallest = if first { net } else { self.smallest.min(net) };
        self.number += 1;
        self.sum += net;
        self.squares += net * net;
    }
}

/// A sum over a count to the nearest whole, halves away from zero.
pub fn nearest(sum: i64, count: i64) -> i64 {
    (2 * sum.abs() + count) / (2 * count) * sum.signum()
}

/// The class of a net: 10 from target - 5 to target + 5, 1 to 9 and 11 to 19 are 11 wide, 0 and 20 hold the rest.
pub fn class(net: i64, target: i64) -> usize {
    let highest = |class: i64| target + 5 + 11 * (class - 10);
    (0..20).find(|&class| net <= highest(class)).unwrap_or(20) as usize
}
