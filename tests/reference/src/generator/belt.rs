//! Boxes on the belt of a mixed stream: the sensor, the foreign input, the weight.

use super::random::Random;
use crate::event::{Settings, Setup, WEIGHT};

#[derive(Default)]
pub struct Belt {
    pub sensor: i64,
    pub foreign: i64,
    /// Ticks until the sensor changes.
    left: i64,
    weight: i64,
    /// Ticks left of a burst of foreign signals.
    burst: i64,
}

impl Belt {
    /// One tick on: boxes come and go, mostly far enough apart to be weighed.
    pub fn tick(&mut self, random: &mut Random, setup: &Setup, settings: &Settings) {
        if self.left == 0 {
            self.sensor = 1 - self.sensor;
            self.left = self.length(random, setup);
            if random.chance(600) {
                self.weight = weight(random, settings);
            }
        }
        self.left -= 1;
        let turn = self.turn(random, setup.is_bench());
        if random.chance(turn) {
            self.foreign = 1 - self.foreign;
        }
    }

    /// How often the foreign level changes: now and then in bursts, more than are carried. Boxes come
    /// slower by hand, and so do the signals.
    fn turn(&mut self, random: &mut Random, by_hand: bool) -> i64 {
        if random.chance(if by_hand { 1 } else { 2 }) {
            self.burst = random.between(10, 40);
        }
        if self.burst > 0 {
            self.burst -= 1;
            return 900;
        }
        match (self.foreign, by_hand) {
            (0, false) => 10,
            (0, true) => 4,
            _ => 400,
        }
    }

    /// Gross as the scale gives it, mostly steady so that limits are met exactly.
    pub fn gross(&self, random: &mut Random) -> i64 {
        let noise = if random.chance(300) { random.between(-2, 2) } else { 0 };
        (self.weight + noise).clamp(-WEIGHT, WEIGHT)
    }

    fn length(&self, random: &mut Random, setup: &Setup) -> i64 {
        let settling = setup.tc.clamp(1, 20);
        let weighing = (setup.tw + setup.ta).min(120);
        match random.between(0, 9) {
            0 => random.between(1, settling), // may be too short to settle
            1 => settling,
            2 | 3 => settling + random.between(0, weighing), // often two on the scale
            _ => settling + weighing / 2 + random.between(0, 3),
        }
    }
}

/// The lowest or the highest net of a class about the target, or the one next to it.
fn border(random: &mut Random, target: i64) -> i64 {
    let class = random.between(1, 20);
    target - 5 + 11 * (class - 10) - random.between(0, 1)
}

/// A box for these settings: at a limit or next to it, at the border of a class, near zero, or anything.
pub(super) fn weight(random: &mut Random, settings: &Settings) -> i64 {
    let s = settings;
    let limit = random.pick(&[s.lolo, s.lo, s.target, s.hi, s.hihi]);
    let weight = match random.between(0, 19) {
        0 => random.between(-WEIGHT, WEIGHT),
        1 => s.nearzero + random.between(0, 2),
        2 => random.between(-100, 100),
        3..=5 => s.tare + random.between(s.lolo - 9, s.hihi + 9),
        6 | 7 => s.tare + border(random, s.target),
        _ => s.tare + limit + random.between(-1, 1),
    };
    weight.clamp(-WEIGHT, WEIGHT)
}
