//! The sheet's figures, from one code's tally and its present target.

use crate::tally::{nearest, Tally, CLASSES};

#[derive(Clone, Copy, Debug, PartialEq, Eq)]
pub struct Sheet {
    pub code: i64,
    pub total: i64,
    pub ng: i64,
    pub counts: [i64; 8],
    pub max: Option<i64>,
    pub min: Option<i64>,
    pub sum: i64,
    pub mean: Option<i64>,
    pub deviation: Option<i64>,
    /// In tenths of a division.
    pub sd: Option<i64>,
    /// In tenths of a division.
    pub sdp: Option<i64>,
    pub classes: [i64; CLASSES],
}

impl Sheet {
    pub fn of(code: i64, tally: &Tally, target: i64) -> Sheet {
        let n = tally.number;
        let any = |figure: i64| (n > 0).then_some(figure);
        let mean = (n > 0).then(|| nearest(tally.sum, n));
        Sheet {
            code,
            total: tally.total(),
            ng: tally.total() - tally.counts[2],
            counts: tally.counts,
            max: any(tally.largest),
            min: any(tally.smallest),
            sum: tally.sum,
            mean,
            deviation: mean.map(|mean| mean - target),
            sd: (n > 1).then(|| spread(tally, n * (n - 1))),
            sdp: (n > 0).then(|| spread(tally, n * n)),
            classes: tally.classes,
        }
    }
}

/// The largest whole s with s²·divisor ≤ 100·(n·Q - S²). The products do not fit 64 bits.
fn spread(tally: &Tally, divisor: i64) -> i64 {
    let (n, sum, squares) = (tally.number as i128, tally.sum as i128, tally.squares as i128);
    // Whole s: s²·divisor ≤ v exactly when s² ≤ v / divisor rounded down.
    root((100 * (n * squares - sum * sum) / divisor as i128) as u128) as i64
}

/// The largest whole s with s² ≤ value, by Newton's steps from above.
fn root(value: u128) -> u128 {
    if value == 0 {
        return 0;
    }
    let mut s = 1 << (128 - value.leading_zeros()).div_ceil(2);
    loop {
        let next = (s + value / s) / 2;
        if next >= s {
            return s;
        }
        s = next;
    }
}

#[cfg(test)]
mod tests {
    use super::*;

    #[test]
    fn root_is_the_largest_whole_one() {
        for value in (0..10_000).chain(999_998_000_000..999_998_002_000) {
            let s = root(value);
            assert!(s * s <= value && value < (s + 1) * (s + 1), "{value}");
        }
    }
}
