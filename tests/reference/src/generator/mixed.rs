//! The kind `mixed`: realistic operation with every kind of event and report.

use super::belt::Belt;
use super::plate::{Plate, NEARZEROS};
use super::random::Random;
use super::Source;
use crate::event::{Event, Settings, Setup, SorterSetup, SORTERS, TIMER, WEIGHT};
use crate::line::Status;
use crate::read::{self, Request};
use crate::stream::Program;

#[derive(Clone, Copy)]
enum Kind {
    Sample,
    Run,
    Stop,
    Emergency,
    Recall,
    Cancel,
    ClearCode,
    ClearAll,
    ErrorReset,
    NoOperation,
    Setup,
    Store,
    Report,
}

/// How often each kind is chosen when stopped, running, paused, in emergency.
const CHOICES: [([i64; 4], Kind); 13] = [
    ([300, 20_000, 500, 500], Kind::Sample),
    ([250, 20, 300, 60], Kind::Run),
    ([20, 80, 60, 60], Kind::Stop),
    ([10, 10, 5, 60], Kind::Emergency),
    ([20, 80, 20, 20], Kind::Recall),
    ([20, 60, 20, 20], Kind::Cancel),
    ([5, 10, 2, 5], Kind::ClearCode),
    ([1, 3, 1, 1], Kind::ClearAll),
    ([10, 20, 20, 10], Kind::ErrorReset),
    ([10, 20, 5, 10], Kind::NoOperation),
    ([200, 20, 10, 40], Kind::Setup),
    ([100, 30, 20, 40], Kind::Store),
    ([20, 100, 15, 10], Kind::Report),
];

#[derive(Clone, Copy, PartialEq, Eq)]
enum Last {
    Verdict,
    /// A recall or a clear, which may end the chance to cancel.
    Turn,
    Other,
}

pub struct Mixed {
    random: Random,
    /// Follows the stream, so that the choices fit the line's status.
    program: Program,
    belt: Belt,
    plate: Plate,
    lines: u64,
    /// What the last line was, for what mostly follows it.
    last: Last,
    /// Limits and tares among the largest weights.
    heavy: bool,
    /// Mostly in bench mode.
    by_hand: bool,
}

impl Mixed {
    pub fn new(seed: u64) -> Mixed {
        let mut random = Random::new(seed);
        let heavy = random.chance(300);
        let by_hand = random.chance(300);
        let (program, belt, plate) = (Program::fresh(), Belt::default(), Plate::default());
        Mixed { random, program, belt, plate, lines: 0, last: Last::Other, heavy, by_hand }
    }

    /// A line for the present status. It is not followed yet.
    pub fn propose(&mut self) -> Vec<u8> {
        self.lines += 1;
        let kind = match self.lines {
            1..=6 => Kind::Store, // so that the codes mostly used have settings
            7 => Kind::Setup,
            _ => self.kind(),
        };
        self.text(kind).into_bytes()
    }

    fn kind(&mut self) -> Kind {
        let (cancel, report) = match self.last {
            Last::Verdict => (50, 50),
            Last::Turn => (300, 100),
            Last::Other => (0, 0),
        };
        if self.random.chance(cancel) {
            return Kind::Cancel;
        }
        if self.random.chance(report) {
            return Kind::Report;
        }
        // On the plate of a bench another nearzero makes a difference.
        if self.program.line.setup.is_bench() && self.random.chance(10) {
            return Kind::Recall;
        }
        let status = self.program.line.status as usize;
        self.random.weighted(&CHOICES.map(|(weights, kind)| (weights[status], kind)))
    }

    /// Lets the own program take the line that was printed.
    pub fn follow(&mut self, text: &[u8]) {
        self.last = Last::Other;
        if let Some(Request::Event(event)) = read::request(text) {
            let Program { line, memory } = &mut self.program;
            let reply = line.apply(memory, &event);
            let judged = reply.is_ok_and(|reply| (1..=8).contains(&reply.done.outcome));
            self.last = match event {
                Event::Recall { .. } | Event::ClearCode { .. } | Event::ClearAll => Last::Turn,
                _ if judged => Last::Verdict,
                _ => Last::Other,
            };
        }
    }

    fn text(&mut self, kind: Kind) -> String {
        match kind {
            Kind::Sample => self.sample(),
            Kind::Run => "COPR".into(),
            Kind::Stop => "CSTD".into(),
            Kind::Emergency => "CSTP".into(),
            Kind::Recall => format!("CCOD{:04}", self.code(9_999)),
            Kind::Cancel => "CCAC".into(),
            Kind::ClearCode => format!("CDTL{:04}", self.code(9_999)),
            Kind::ClearAll => "CETL".into(),
            Kind::ErrorReset => "CRER".into(),
            Kind::NoOperation => "CNOP".into(),
            Kind::Setup => self.setup(),
            Kind::Store => self.store(),
            Kind::Report => format!("report={}", self.code(i64::MAX)),
        }
    }

    /// Mostly the active or one of the first six codes, at times another or none.
    fn code(&mut self, most: i64) -> i64 {
        match self.random.between(0, 39) {
            0 => self.random.pick(&[99, 100, 101, 256, 1000, most]),
            1..=3 => self.random.between(6, 99),
            4..=15 => self.program.line.code as i64,
            _ => self.random.between(0, 5),
        }
    }

    fn sample(&mut self) -> String {
        let line = &self.program.line;
        let (status, setup) = (line.status, line.setup);
        let settings = self.program.memory.settings[line.code];
        let random = &mut self.random;
        self.belt.tick(random, &setup, &settings);
        let safety = if random.chance(if status == Status::Paused { 200 } else { 20 }) {
            random.between(0, 255)
        } else {
            setup.need | random.between(0, 255)
        };
        // A ninth signal while a box stays on the plate: its tick alone may arm.
        let stays = setup.is_bench() && !line.bench.is_armed();
        if stays && line.foreign.is_full() && random.chance(150) {
            self.belt.foreign = 1;
        }
        let ninth = line.foreign.is_full() && line.foreign_level < self.belt.foreign;
        let ends = ninth || setup.need & !safety != 0;
        // A line at rest is mostly cleared of boxes, so that it can run again.
        let gross = match status {
            Status::Stopped | Status::Emergency if random.chance(700) => settings.nearzero.min(3),
            _ if setup.is_bench() => self.plate.tick(random, line, &settings, ends),
            _ => self.belt.gross(random),
        };
        let emergency = random.chance(match status {
            Status::Emergency => 300,
            Status::Stopped => 40,
            _ => 1,
        });
        let mut v = [self.belt.sensor, i64::from(emergency), safety, self.belt.foreign, gross];
        let rest = matches!(status, Status::Stopped | Status::Emergency);
        self.stretch(&mut v, &[1, 1, 255, 1, WEIGHT], if rest { 100 } else { 6 });
        format!(
            "sensor={} emergency={} safety={} foreign={} gross={}",
            v[0], v[1], v[2], v[3], v[4]
        )
    }

    fn setup(&mut self) -> String {
        let Setup { mode, edge, tc, tw, ta, tf, sorters, stop, need } = self.timers();
        let mut v = vec![mode, edge, tc, tw, ta, tf];
        let mut most = vec![4, 2, TIMER, TIMER, TIMER, TIMER];
        for SorterSetup { ts, to, sort } in sorters {
            v.extend([ts, to, sort]);
            most.extend([TIMER, TIMER, 254]);
        }
        v.extend([stop, need]);
        most.extend([255, 255]);
        self.stretch(&mut v, &most, 200);
        let sorting = (1..=SORTERS).zip(v[6..].chunks(3));
        let sorting: String = sorting
            .map(|(k, s)| format!(" ts{k}={} to{k}={} sort{k}={}", s[0], s[1], s[2]))
            .collect();
        format!(
            "mode={} edge={} tc={} tw={} ta={} tf={}{sorting} stop={} need={}",
            v[0], v[1], v[2], v[3], v[4], v[5], v[24], v[25]
        )
    }

    /// Short timers mostly.
    fn timers(&mut self) -> Setup {
        let random = &mut self.random;
        let belt = [(1, 1), (1, 1), (1, 2), (1, 2), (2, 2), (2, 2), (2, 1), (3, 2)];
        let bench = random.chance(if self.by_hand { 800 } else { 200 });
        let (mode, edge) = if bench { (4, random.between(1, 2)) } else { random.pick(&belt) };
        let long = random.chance(60);
        let sorters = match bench {
            true => bench_sorters(random),
            false => sorters(random, if long { 60 } else { 6 }),
        };
        let (wait, delay) = if bench { (15, random.pick(&[6, 60, 400])) } else { (4, 6) };
        let [a, b, c] = [(); 3].map(|()| random.between(0, 255));
        let [one, other] = [(); 2].map(|()| 1 << random.between(0, 7));
        Setup {
            mode,
            edge,
            tc: random.between(0, if long { 12 } else { 4 }),
            tw: random.between(0, if long { 80 } else { wait }),
            ta: random.between(1, if long { 40 } else { 4 }),
            tf: random.between(0, if long { 60 } else { delay }),
            sorters,
            stop: random.pick(&[0, 0, one, a & b & c, if bench { b } else { b & c }]),
            need: random.pick(&[0, 0, other, a & c]),
        }
    }

    fn store(&mut self) -> String {
        let code = if self.lines <= 6 { self.lines as i64 - 1 } else { self.code(i64::MAX) };
        let Settings { target, lolo, lo, hi, hihi, nearzero, tare } = self.settings();
        let mut v = [code, target, lolo, lo, hi, hihi, nearzero, tare];
        self.stretch(&mut v, &[99, WEIGHT, WEIGHT, WEIGHT, WEIGHT, WEIGHT, WEIGHT, WEIGHT], 90);
        if self.random.chance(80) {
            v.swap(2, 3 + self.random.below(3)); // out of order, if they differ
        }
        format!(
            "code={} target={} lolo={} lo={} hi={} hihi={} nearzero={} tare={}",
            v[0], v[1], v[2], v[3], v[4], v[5], v[6], v[7]
        )
    }

    fn settings(&mut self) -> Settings {
        let random = &mut self.random;
        let scale = if self.heavy { 400 } else { 1 };
        let target = random.between(-900, 1500) * scale;
        let target = target.min(WEIGHT - 100 * scale);
        let lo = target - random.between(0, 20) * scale;
        let hi = target + random.between(0, 20) * scale;
        Settings {
            target,
            lolo: lo - random.between(0, 30) * scale,
            lo,
            hi,
            hihi: hi + random.between(0, 30) * scale,
            nearzero: random.pick(&NEARZEROS),
            tare: random.pick(&[0, 0, 400, 1000, 1000]) * scale,
        }
    }

    /// Puts a field to an end of its range or beyond, so many times in a thousand.
    fn stretch(&mut self, values: &mut [i64], most: &[i64], per_thousand: i64) {
        if self.random.chance(per_thousand) {
            let place = self.random.below(values.len());
            let most = most[place];
            let ends = [0, most, most, most + 1, most + 1, -most, -most - 1, -1];
            let beyond = [most * 10 + 9, 1 << 16, 1 << 32, i64::MAX, i64::MIN];
            let near = self.random.chance(600);
            values[place] = if near { self.random.pick(&ends) } else { self.random.pick(&beyond) };
        }
    }
}

/// Sorters of any masks, so that several want one verdict. At times some have waits so long
/// that their queues overflow beside others with room; at times all six are on together.
fn sorters(random: &mut Random, longest_on: i64) -> [SorterSetup; SORTERS] {
    let overflow = random.chance(500);
    let together = random.chance(150);
    let common = random.between(0, 255);
    let mut sorters = [(); SORTERS].map(|()| {
        let [a, b] = [(); 2].map(|()| random.between(0, 255));
        let full = overflow && random.chance(400);
        SorterSetup {
            ts: if full { random.between(100, 3000) } else { random.between(1, 25) },
            to: if together { random.between(20, 60) } else { random.between(1, longest_on) },
            sort: 254
                & match (together, full) {
                    (true, _) => common | a & b,
                    (false, true) => a | b,
                    (false, false) => random.pick(&[0, a, a & b]),
                },
        }
    });
    if random.chance(40) {
        sorters[random.below(SORTERS)].sort |= 1; // a bit that sort must not have
    }
    sorters
}

/// Mostly no masks, at times one of the six, which bench mode must not have.
fn bench_sorters(random: &mut Random) -> [SorterSetup; SORTERS] {
    let mut sorters = [SorterSetup { ts: 100, to: 50, sort: 0 }; SORTERS];
    if random.chance(250) {
        sorters[random.below(SORTERS)].sort = random.between(0, 255);
    }
    sorters
}

impl Source for Mixed {
    fn next_line(&mut self) -> Vec<u8> {
        let text = self.propose();
        self.follow(&text);
        text
    }
}
