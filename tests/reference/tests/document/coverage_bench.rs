//! What the generated streams meet of T-02, and a second account of when a box is detected in mode 4:
//! the list of all grosses since the run, and what armed the line.

use std::collections::BTreeMap;

use reference::event::{Event, Sample};
use reference::generator;
use reference::line::{Item, Line, Reply, Status};
use reference::read::{self, Request};
use reference::refusal::Refusal;
use reference::stream::Program;

/// What armed the line since the last detection, where only one kind of thing did.
#[derive(Clone, Copy, Debug, PartialEq, Eq)]
enum Armed {
    No,
    Run,
    /// A running tick with nothing in hand.
    Tick,
    BoxInHand,
    StopBit,
    Error7,
    Several,
}

struct Watch {
    /// How often each case came.
    met: BTreeMap<&'static str, u64>,
    program: Program,
    armed: Armed,
    /// Of the running ticks since the last accepted run.
    grosses: Vec<i64>,
    from_paused: bool,
    /// The active code's at the running tick before.
    nearzero: i64,
    /// Not armed, and the plate was empty on an unsafe tick.
    empty_unsafe: bool,
}

impl Watch {
    fn count(&mut self, case: &'static str, came: bool) {
        *self.met.entry(case).or_default() += u64::from(came);
    }

    fn follow(&mut self, kind: &str, seed: u64, lines: u64) {
        let mut source = generator::source(kind, seed, lines).expect("a kind");
        (self.program, self.armed) = (Program::fresh(), Armed::No);
        for _ in 0..lines {
            let Some(Request::Event(event)) = read::request(&source.next_line()) else { continue };
            let before = self.program.line.clone();
            let reply = self.program.line.apply(&mut self.program.memory, &event);
            match (&event, &reply) {
                (Event::Setup(setup), _) => self.setup(before.setup.mode, setup.mode, &reply),
                (Event::Run, Ok(_)) => self.run(before.status),
                (_, Ok(reply)) if before.setup.mode == 4 => {
                    self.at_the_bench(&before, &event, reply)
                }
                _ => {}
            }
        }
    }

    fn setup(&mut self, before: i64, mode: i64, reply: &Result<Reply, Refusal>) {
        let contradiction = *reply == Err(Refusal::CONTRADICTION);
        self.count("mode 4 refused for a mask", mode == 4 && contradiction);
        self.count("mode 3 refused", mode == 3 && *reply == Err(Refusal::VALUE));
        self.count("from mode 4 to 1", (before, mode) == (4, 1) && reply.is_ok());
        self.count("from mode 4 to 2", (before, mode) == (4, 2) && reply.is_ok());
        self.count("to mode 4", before != 4 && mode == 4 && reply.is_ok());
    }

    fn run(&mut self, status: Status) {
        self.grosses.clear();
        self.from_paused = status == Status::Paused;
        if !self.from_paused {
            self.arm(Armed::Run);
        }
    }

    fn arm(&mut self, by: Armed) {
        self.armed = if self.armed == Armed::No || self.armed == by { by } else { Armed::Several };
        self.empty_unsafe = false;
    }

    fn at_the_bench(&mut self, before: &Line, event: &Event, reply: &Reply) {
        self.count("abandoned", reply.done.outcome == 10);
        assert!(!reply.conveyor && reply.sorter == 0);
        let Event::Sample(sample) = event else { return };
        let running = before.status == Status::Running && sample.emergency == 0;
        let safe = before.setup.need & !sample.safety == 0;
        self.count("unsafe", running && !safe);
        if running && safe {
            self.running_tick(before, sample, reply);
        } else {
            let empty = running && sample.gross <= self.nearzero;
            self.empty_unsafe |= empty && self.armed == Armed::No;
            assert!(!reply.done.detected);
        }
    }

    fn running_tick(&mut self, before: &Line, sample: &Sample, reply: &Reply) {
        let nearzero = self.program.memory.settings[self.program.line.code].nearzero;
        let empty = before.item == Item::None || reply.done.outcome != 0;
        self.grosses.push(sample.gross);
        if sample.gross <= nearzero {
            let recalled = self.armed == Armed::No && sample.gross > self.nearzero;
            self.count("armed by a recall's nearzero", recalled);
            self.arm(match (reply.error, reply.status, empty) {
                (Some(7), ..) => Armed::Error7,
                (_, Status::Paused, _) => Armed::StopBit,
                (.., false) => Armed::BoxInHand,
                _ => Armed::Tick,
            });
        }
        let open = reply.status == Status::Running && sample.gross > nearzero;
        let armed = self.armed != Armed::No;
        let alike = self.apart().is_some_and(|apart| apart <= 2);
        let detected = open && empty && armed && alike;
        assert_eq!(reply.done.detected, detected, "{:?} {:?}", self.armed, self.grosses);
        self.count_tick(before, reply);
        self.count("all but the arming", open && empty && !armed && alike);
        self.count("all but an empty hand", open && !empty && armed && alike);
        self.count_unlike(open && empty && armed);
        let tenth = self.grosses.len() == 10;
        let unseen = open && empty && !armed && alike && tenth && self.from_paused;
        self.count("unseen on the tenth tick from paused", unseen);
        self.count("unseen, empty on an unsafe tick", unseen && self.empty_unsafe);
        if detected {
            self.count("detected by a recall's nearzero", sample.gross <= self.nearzero);
            self.count("detected on the verdict's tick", reply.done.outcome != 0);
            self.detection();
        }
        self.nearzero = nearzero;
    }

    fn ten(&self) -> &[i64] {
        &self.grosses[self.grosses.len().saturating_sub(10)..]
    }

    /// How far the last ten are apart.
    fn apart(&self) -> Option<i64> {
        let ten = self.grosses.last_chunk::<10>()?;
        Some(ten.iter().max()? - ten.iter().min()?)
    }

    fn count_tick(&mut self, before: &Line, reply: &Reply) {
        let settled = self.program.line.settled;
        let edge = settled != before.settled && (settled == 1) == (before.setup.edge == 1);
        let in_hand = before.item != Item::None;
        self.count("running ticks", true);
        self.count("chosen edge, nothing in hand", edge && !in_hand);
        self.count("chosen edge, a box in hand", edge && in_hand);
        self.count("error 7", reply.error == Some(7));
        let outcome = reply.done.outcome;
        assert!([0, 1, 2, 3, 4, 5, 6, 9].contains(&outcome), "no two-on, no crash");
        self.count("graded", (1..=5).contains(&outcome));
        self.count("foreign", outcome == 6);
        self.count("dismissed", outcome == 9);
    }

    /// Ticks on which the grosses alone may speak against a detection.
    fn count_unlike(&mut self, ready: bool) {
        let three = ready && self.apart() == Some(3);
        let slow = self.ten().windows(2).all(|pair| (pair[0] - pair[1]).abs() <= 1);
        let alike =
            self.ten().iter().max() <= self.ten().iter().min().map(|least| least + 2).as_ref();
        let nine = self.grosses.len() == 9 && alike;
        self.count("3 apart", three);
        self.count("3 apart, neighbours 1", three && slow);
        self.count("nine alike", ready && nine);
    }

    fn detection(&mut self) {
        let tenth = self.grosses.len() == 10;
        self.count("detected", true);
        self.count("detected, 2 apart", self.apart() == Some(2));
        self.count("detected on the tenth tick from stopped", tenth && !self.from_paused);
        self.count("detected on the tenth tick from paused", tenth && self.from_paused);
        self.count("detected, armed with a box in hand", self.armed == Armed::BoxInHand);
        self.count("detected, armed on a stop bit's tick", self.armed == Armed::StopBit);
        self.count("detected, armed on error 7's tick", self.armed == Armed::Error7);
        self.armed = Armed::No;
    }
}

#[test]
fn streams_meet_bench_mode() {
    for kind in ["mixed", "damaged"] {
        let mut watch = Watch {
            met: BTreeMap::new(),
            program: Program::fresh(),
            armed: Armed::No,
            grosses: Vec::new(),
            from_paused: false,
            nearzero: 0,
            empty_unsafe: false,
        };
        (1..=20).for_each(|seed| watch.follow(kind, seed, 30_000));
        println!("{kind} {:#?}", watch.met);
        assert!(watch.met.values().all(|&times| times > 0));
    }
}
