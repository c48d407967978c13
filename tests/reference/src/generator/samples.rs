//! The kind `samples`: a setup, a store, COPR, then boxes passing with noise.

use super::random::Random;
use super::Source;

/// One box takes this many ticks: 0 to 14 on the sensor, on the scale from
/// tick 10, with its full weight on it from 20 to 44.
const CYCLE: i64 = 60;

/// Everything but OK is sorted out by sorter 1; the other sorters are as on a fresh line.
const SETUP: &str = "mode=1 edge=2 tc=2 tw=8 ta=16 tf=5 ts1=40 to1=12 sort1=222 \
    ts2=100 to2=50 sort2=0 ts3=100 to3=50 sort3=0 ts4=100 to4=50 sort4=0 \
    ts5=100 to5=50 sort5=0 ts6=100 to6=50 sort6=0 stop=0 need=1";
const STORE: &str = "code=0 target=1000 lolo=900 lo=990 hi=1010 hihi=1100 nearzero=100 tare=0";

pub struct Samples {
    random: Random,
    lines: u64,
    /// The tick within the box's cycle, and how long this cycle is.
    tick: i64,
    cycle: i64,
    weight: i64,
}

impl Samples {
    pub fn new(seed: u64) -> Samples {
        Samples { random: Random::new(seed), lines: 0, tick: 0, cycle: CYCLE, weight: 1000 }
    }

    /// Around the target of 1000, so that all five grades occur.
    fn next_box(&mut self) {
        self.tick = 0;
        self.cycle = self.random.between(CYCLE - 5, CYCLE + 5);
        self.weight = 1000 + (0..4).map(|_| self.random.between(-50, 50)).sum::<i64>();
    }

    fn gross(&mut self) -> i64 {
        let load = match self.tick {
            10..=19 => self.weight * (self.tick - 9) / 11,
            20..=44 => self.weight,
            45..=54 => self.weight * (55 - self.tick) / 11,
            _ => 0,
        };
        load + self.random.between(-3, 3)
    }

    fn sample(&mut self) -> String {
        if self.tick == self.cycle {
            self.next_box();
        }
        let sensor = i64::from(self.tick < 15);
        let gross = self.gross();
        self.tick += 1;
        format!("sensor={sensor} emergency=0 safety=255 foreign=0 gross={gross}")
    }
}

impl Source for Samples {
    fn next_line(&mut self) -> Vec<u8> {
        self.lines += 1;
        let text = match self.lines {
            1 => SETUP.into(),
            2 => STORE.into(),
            3 => "COPR".into(),
            _ => self.sample(),
        };
        text.into_bytes()
    }
}
