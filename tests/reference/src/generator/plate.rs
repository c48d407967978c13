//! Boxes on the plate of a mixed stream in bench mode: lifted on, left lying, lifted off by hand.

use super::belt;
use super::random::Random;
use crate::event::{Settings, Setup, WEIGHT};
use crate::line::{Item, Line, Status};

/// The values of nearzero in a mixed stream's stores.
pub const NEARZEROS: [i64; 4] = [0, 10, 50, 100];

#[derive(Clone, Copy, Default)]
enum Phase {
    #[default]
    Empty,
    Coming,
    Lying,
    Going,
}

/// How the gross of a box that lies on the plate moves.
#[derive(Clone, Copy)]
enum Manner {
    /// Any of the gross and so many divisions more.
    Within(i64),
    /// A division more every so many ticks.
    Drift(i64),
    /// Still, but for single ticks just inside or outside of 2 divisions.
    Jolts,
}

pub struct Plate {
    phase: Phase,
    /// Ticks left of the phase, and ticks passed of it.
    left: i64,
    passed: i64,
    weight: i64,
    manner: Manner,
}

impl Default for Plate {
    fn default() -> Plate {
        Plate { phase: Phase::Empty, left: 0, passed: 0, weight: 0, manner: Manner::Jolts }
    }
}

impl Plate {
    /// The gross of one tick; `ends` says that an unsafe input or a ninth signal ends it early.
    pub fn tick(
        &mut self,
        random: &mut Random,
        line: &Line,
        settings: &Settings,
        ends: bool,
    ) -> i64 {
        let swapped = line.status == Status::Paused && random.chance(150);
        let dips = dips(random, line, ends);
        if swapped || dips {
            self.enter(Phase::Lying, random, &line.setup);
            self.lift_on(random, settings);
        }
        if dips {
            return empty(random, settings.nearzero);
        }
        while self.left == 0 {
            self.turn(random, &line.setup, settings);
        }
        self.left -= 1;
        self.passed += 1;
        let gross = match self.phase {
            Phase::Empty => empty(random, settings.nearzero),
            Phase::Coming | Phase::Going => self.weight * random.between(1, 11) / 10,
            Phase::Lying => self.weight + self.moved(random),
        };
        gross.clamp(-WEIGHT, WEIGHT)
    }

    fn turn(&mut self, random: &mut Random, setup: &Setup, settings: &Settings) {
        let next = match self.phase {
            Phase::Empty => Phase::Coming,
            Phase::Coming => Phase::Lying,
            Phase::Lying => random.pick(&[Phase::Going, Phase::Going, Phase::Empty, Phase::Coming]),
            Phase::Going => Phase::Empty,
        };
        self.enter(next, random, setup);
        if matches!(next, Phase::Coming) {
            self.lift_on(random, settings);
        }
    }

    /// A box lies as long as it takes to detect it, or to weigh it, at times shorter by a tick.
    fn enter(&mut self, phase: Phase, random: &mut Random, setup: &Setup) {
        self.phase = phase;
        self.passed = 0;
        self.left = match phase {
            Phase::Empty => random.pick(&[1, 1, 2, 5, 12]),
            Phase::Coming | Phase::Going => random.between(0, 4),
            Phase::Lying => match random.between(0, 9) {
                0..=2 => random.between(8, 12),
                3 => random.between(1, 60),
                _ => 9 + (setup.tw + setup.ta).min(120) + random.between(0, 12),
            },
        };
    }

    /// Mostly a box for these settings, at times one that is on the plate for one nearzero and not for another.
    fn lift_on(&mut self, random: &mut Random, settings: &Settings) {
        let near = random.pick(&NEARZEROS) + random.between(-1, 3);
        let heavy = belt::weight(random, settings).max(settings.nearzero + 1);
        self.weight = if random.chance(200) { near } else { heavy };
        self.manner = match random.between(0, 9) {
            0..=3 => Manner::Within(0),
            4 | 5 => Manner::Within(2),
            6 => Manner::Within(random.pick(&[1, 3])),
            7 => Manner::Drift(random.pick(&[1, 3, 4, 5])),
            _ => Manner::Jolts,
        };
    }

    fn moved(&self, random: &mut Random) -> i64 {
        match self.manner {
            Manner::Within(most) => random.between(0, most),
            Manner::Drift(ticks) => self.passed / ticks,
            Manner::Jolts if random.chance(60) => random.pick(&[-3, -2, 2, 3]),
            Manner::Jolts => 0,
        }
    }
}

/// The plate is empty for a tick while one box takes another's place: often on a tick that ends early,
/// or may, as a verdict's.
fn dips(random: &mut Random, line: &Line, ends: bool) -> bool {
    random.chance(match line.item {
        _ if ends => 600,
        Item::Averaging { left: 1, .. } => 300,
        Item::None => 5,
        _ => 20,
    })
}

fn empty(random: &mut Random, nearzero: i64) -> i64 {
    random.pick(&[0, 0, 1, -1, nearzero, nearzero, nearzero - 1, nearzero + 1])
}
