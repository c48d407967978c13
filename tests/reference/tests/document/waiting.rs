//! T-14 of document 02, no box left waiting: over generated streams each box has its outcome on the last of the
//! tw + ta running ticks behind its detection, unless a two-on, a stop or an emergency came sooner.

use reference::event::Event;
use reference::generator;
use reference::line::{Done, Line, Reply, Status};
use reference::read::{self, Request};
use reference::stream::Program;

use crate::bench::{sample, Bench};

/// A box without an outcome.
struct Waiting {
    /// The tw + ta in force at its detection.
    due: i64,
    /// The running ticks since then, without those that error 7 ended.
    ticks: i64,
    paused: bool,
}

/// How often each case came.
#[derive(Debug, Default)]
struct Met {
    weighed: u64,
    weighed_by_hand: u64,
    over_a_pause: u64,
    on_the_next_detection: u64,
    two_on: u64,
    abandoned: u64,
    ended_by_error_7: u64,
}

#[derive(Default)]
struct Watch {
    waiting: Option<Waiting>,
    met: Met,
}

/// "If not running, the sample ends. If a bit set in need is 0 in safety: paused, error 1, end. Else it is a running
/// tick": told from the line before an accepted event.
fn is_running_tick(before: &Line, event: &Event) -> bool {
    let Event::Sample(sample) = event else { return false };
    let safe = before.setup.need & !sample.safety == 0;
    before.status == Status::Running && sample.emergency == 0 && safe
}

impl Watch {
    fn follow(&mut self, kind: &str, seed: u64, lines: u64) {
        let mut source = generator::source(kind, seed, lines).expect("a kind");
        let mut program = Program::fresh();
        self.waiting = None;
        for _ in 0..lines {
            let Some(Request::Event(event)) = read::request(&source.next_line()) else { continue };
            let before = program.line.clone();
            if let Ok(reply) = program.line.apply(&mut program.memory, &event) {
                self.enter(&before, &event, &reply);
            }
        }
    }

    fn enter(&mut self, before: &Line, event: &Event, reply: &Reply) {
        let tick = is_running_tick(before, event);
        let error_7 = tick && reply.error == Some(7);
        if let Some(waiting) = &mut self.waiting {
            waiting.ticks += i64::from(tick && !error_7);
            waiting.paused |= reply.status == Status::Paused;
            self.met.ended_by_error_7 += u64::from(error_7);
        }
        self.settle(before, reply);
        if reply.done.detected && reply.done.outcome != 7 {
            assert!(self.waiting.is_none(), "a box with another in hand, and no two-on");
            let due = before.setup.tw + before.setup.ta;
            self.waiting = Some(Waiting { due, ticks: 0, paused: false });
        }
    }

    /// The outcome of a reply is that of the box that waits; of a two-on also that of the box detected there.
    fn settle(&mut self, before: &Line, reply: &Reply) {
        let Done { detected, outcome, .. } = reply.done;
        if outcome == 0 {
            assert!(self.waiting.as_ref().is_none_or(|waiting| waiting.ticks < waiting.due));
            return;
        }
        let Waiting { due, ticks, paused } = self.waiting.take().expect("a box that waits");
        match outcome {
            7 => {
                assert!(detected && ticks < due);
                self.met.two_on += 1;
            }
            Done::ABANDONED => {
                assert!(ticks < due);
                self.met.abandoned += 1;
            }
            _ => {
                assert_eq!(ticks, due, "outcome {outcome}");
                self.met.weighed += 1;
                self.met.weighed_by_hand += u64::from(before.setup.mode == 4);
                self.met.over_a_pause += u64::from(paused);
                self.met.on_the_next_detection += u64::from(detected);
            }
        }
    }
}

#[test]
fn no_box_waits_longer_or_shorter() {
    let mut watch = Watch::default();
    (1..=20).for_each(|seed| watch.follow("mixed", seed, 30_000));
    (1..=5).for_each(|seed| watch.follow("damaged", seed, 10_000));
    watch.follow("samples", 1, 50_000);
    let Met { weighed, weighed_by_hand, over_a_pause, .. } = watch.met;
    let Met { on_the_next_detection, two_on, abandoned, ended_by_error_7, .. } = watch.met;
    let belt = [weighed - weighed_by_hand, over_a_pause, on_the_next_detection];
    let others = [weighed_by_hand, two_on, abandoned, ended_by_error_7];
    assert!(belt.iter().chain(&others).all(|times| *times >= 20), "{:?}", watch.met);
}

/// "with the tw and ta in force at detection"; "A running tick that error 7 ended is not counted. Pauses add none"
#[test]
fn the_third_tick_of_tw_1_and_ta_2() {
    let mut bench = Bench::running("tw=1 ta=2 tf=9999 need=1");
    for _ in 0..8 {
        bench.tick("foreign=1", "detected=0 error=none");
        bench.tick("foreign=0", "detected=0 error=none");
    }
    bench.tick("gross=500 sensor=1", "detected=1 outcome=0");
    bench.tick("gross=900 sensor=1", "status=1 outcome=0");
    bench.check("CSTD", "status=2 outcome=0");
    bench.tick("gross=900 sensor=1", "status=2 outcome=0");
    bench.check("COPR", "status=1 outcome=0");
    bench.tick("gross=900 sensor=1 safety=254", "status=2 outcome=0 error=1");
    bench.tick("gross=900 sensor=1", "status=2 outcome=0");
    bench.check("COPR", "status=1 outcome=0");
    bench.check(&sample("gross=900 sensor=2"), "refused=2");
    bench.tick("gross=900 sensor=1 foreign=1", "status=2 outcome=0 error=7");
    bench.check("COPR", "status=1 outcome=0");
    bench.tick("gross=1003 sensor=1 foreign=1", "status=1 outcome=0 error=none");
    bench.tick("gross=1004 sensor=1 foreign=1", "status=1 outcome=3 net=1004");
}
