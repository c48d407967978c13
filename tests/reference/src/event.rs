//! The twelve kinds of event, with the ranges of their fields.
//!
//! Fields are carried as they were read, in range or not; what a range
//! shuts out is refused 2 at its place in the order of refusals.

/// Weights are whole divisions from -WEIGHT to WEIGHT.
pub const WEIGHT: i64 = 999_999;
/// The longest timer, in ticks of 10 ms.
pub const TIMER: i64 = 9_999;
/// Codes are 0 to CODES - 1.
pub const CODES: i64 = 100;
/// Sorters are 1 to SORTERS.
pub const SORTERS: usize = 6;

#[derive(Clone, Copy, Debug, PartialEq, Eq)]
pub enum Event {
    Sample(Sample),
    Run,
    Stop,
    Emergency,
    Recall { code: i64 },
    Cancel,
    ClearCode { code: i64 },
    ClearAll,
    ErrorReset,
    NoOperation,
    Setup(Setup),
    Store { code: i64, settings: Settings },
}

#[derive(Clone, Copy, Debug, PartialEq, Eq)]
pub struct Sample {
    pub sensor: i64,
    pub emergency: i64,
    pub safety: i64,
    pub foreign: i64,
    pub gross: i64,
}

#[derive(Clone, Copy, Debug, PartialEq, Eq)]
pub struct Setup {
    /// 1 through mode, 2 stop mode, 4 bench mode.
    pub mode: i64,
    /// 1 off to on, 2 on to off.
    pub edge: i64,
    /// Settling of the sensor.
    pub tc: i64,
    /// Wait from detection to averaging.
    pub tw: i64,
    /// Averaging.
    pub ta: i64,
    /// Foreign delay.
    pub tf: i64,
    pub sorters: [SorterSetup; SORTERS],
    pub stop: i64,
    pub need: i64,
}

/// What one sorter is set to.
#[derive(Clone, Copy, Debug, PartialEq, Eq)]
pub struct SorterSetup {
    /// Sorter wait.
    pub ts: i64,
    /// Sorter on-time.
    pub to: i64,
    pub sort: i64,
}

/// One code's settings record.
#[derive(Clone, Copy, Debug, Default, PartialEq, Eq)]
pub struct Settings {
    pub target: i64,
    pub lolo: i64,
    pub lo: i64,
    pub hi: i64,
    pub hihi: i64,
    pub nearzero: i64,
    pub tare: i64,
}

pub fn is_code(code: i64) -> bool {
    (0..CODES).contains(&code)
}

fn is_level(level: i64) -> bool {
    (0..=1).contains(&level)
}

fn is_mask(mask: i64) -> bool {
    (0..=255).contains(&mask)
}

pub fn is_weight(weight: i64) -> bool {
    (-WEIGHT..=WEIGHT).contains(&weight)
}

impl Sample {
    pub fn in_range(&self) -> bool {
        is_level(self.sensor)
            && is_level(self.emergency)
            && is_level(self.foreign)
            && is_mask(self.safety)
            && is_weight(self.gross)
    }
}

impl SorterSetup {
    fn in_range(&self) -> bool {
        [self.ts, self.to].iter().all(|t| (1..=TIMER).contains(t))
            && is_mask(self.sort)
            && self.sort & 1 == 0 // a crash found no place to be sorted from
    }
}

impl Setup {
    /// The setup of a fresh line.
    pub const FRESH: Setup = Setup {
        mode: 1,
        edge: 2,
        tc: 0,
        tw: 72,
        ta: 35,
        tf: 0,
        sorters: [SorterSetup { ts: 100, to: 50, sort: 0 }; SORTERS],
        stop: 0,
        need: 0,
    };

    pub fn in_range(&self) -> bool {
        [1, 2, 4].contains(&self.mode)
            && (1..=2).contains(&self.edge)
            && [self.tc, self.tw, self.tf].iter().all(|t| (0..=TIMER).contains(t))
            && (1..=TIMER).contains(&self.ta)
            && self.sorters.iter().all(SorterSetup::in_range)
            && [self.stop, self.need].into_iter().all(is_mask)
    }

    /// Mode 2 needs edge 2; in mode 4 nothing is sorted.
    pub fn contradicts(&self) -> bool {
        let sorts = self.sorters.iter().any(|set| set.sort != 0);
        self.mode == 2 && self.edge == 1 || self.is_bench() && sorts
    }

    /// Boxes are lifted on by hand.
    pub fn is_bench(&self) -> bool {
        self.mode == 4
    }
}

impl Settings {
    pub fn in_range(&self) -> bool {
        [self.target, self.lolo, self.lo, self.hi, self.hihi].into_iter().all(is_weight)
            && [self.nearzero, self.tare].iter().all(|w| (0..=WEIGHT).contains(w))
    }

    /// The limits are out of order.
    pub fn contradicts(&self) -> bool {
        !(self.lolo <= self.lo
            && self.lo <= self.target
            && self.target <= self.hi
            && self.hi <= self.hihi)
    }
}
