//! Bench mode (mode 4): a box is detected by the scale alone, once it lies still.

#[derive(Clone, Copy, Debug, Default, PartialEq, Eq)]
pub struct Bench {
    /// A box may be detected: since the last one was, the plate was near zero or the line run from stopped.
    armed: bool,
    /// The grosses of the last running ticks, each at its tick's place, going round.
    grosses: [i64; Bench::TICKS],
    /// Running ticks since the last accepted run.
    ticks: usize,
}

impl Bench {
    /// A box lies still when the grosses of so many running ticks are alike.
    pub const TICKS: usize = 10;
    /// The most that they may differ, in divisions.
    pub const APART: i64 = 2;

    /// An accepted run begins the ticks anew; from stopped it arms.
    pub fn run(&mut self, from_stopped: bool) {
        self.ticks = 0;
        self.armed |= from_stopped;
    }

    pub fn is_armed(&self) -> bool {
        self.armed
    }

    /// A running tick; with gross at most nearzero it arms.
    pub fn tick(&mut self, gross: i64, nearzero: i64) {
        self.grosses[self.ticks % Bench::TICKS] = gross;
        self.ticks += 1;
        self.armed |= gross <= nearzero;
    }

    /// Step 7 of a sample, with nothing in hand: whether a box is detected, which disarms.
    pub fn detects(&mut self, gross: i64, nearzero: i64) -> bool {
        let detected = self.armed && gross > nearzero && self.is_still();
        self.armed &= !detected;
        detected
    }

    /// The largest and the smallest of the last grosses are near; fewer than 10 tell nothing.
    fn is_still(&self) -> bool {
        let largest = self.grosses.into_iter().max();
        let smallest = self.grosses.into_iter().min();
        self.ticks >= Bench::TICKS && largest <= smallest.map(|least| least + Bench::APART)
    }
}
