//! What the generated streams meet of T-01: a full queue beside others, and six sorters at once.

use reference::event::Event;
use reference::generator;
use reference::line::Line;
use reference::memory::Memory;
use reference::read::{self, Request};
use reference::stream::Program;
use reference::verdict::Verdict;

const VERDICTS: [Verdict; 8] = [
    Verdict::LoLo,
    Verdict::Lo,
    Verdict::Ok,
    Verdict::Hi,
    Verdict::HiHi,
    Verdict::Foreign,
    Verdict::TwoOn,
    Verdict::Crash,
];

#[derive(Debug, Default)]
struct Met {
    /// Replies with sorter=63.
    all_on: u64,
    /// Verdicts that entered several queues.
    several: u64,
    /// Crashes, and those beside a wanted queue with room.
    crash: u64,
    crash_beside_room: u64,
    /// Verdicts queued while the queue of a sorter that does not want them was full.
    full_and_unwanted: u64,
    /// Two-on that found a wanted queue full, and those with room in another.
    two_on_full: u64,
    two_on_full_beside_room: u64,
}

impl Met {
    fn follow(&mut self, seed: u64, lines: u64) {
        let mut source = generator::source("mixed", seed, lines).expect("a kind");
        let mut program = Program::fresh();
        for _ in 0..lines {
            let Some(Request::Event(event)) = read::request(&source.next_line()) else { continue };
            let before = program.line.clone();
            let Ok(reply) = program.line.apply(&mut program.memory, &event) else { continue };
            self.all_on += u64::from(reply.sorter == 63);
            if (1..=8).contains(&reply.done.outcome) {
                self.verdict(before, program.memory.clone(), &event);
            }
        }
    }

    /// Without sort masks the line gives the verdict that was due and leaves the queues as it found them.
    fn verdict(&mut self, mut line: Line, mut memory: Memory, event: &Event) {
        let masks = line.setup.sorters.map(|set| set.sort);
        line.setup.sorters.iter_mut().for_each(|set| set.sort = 0);
        let reply = line.apply(&mut memory, event).expect("it was accepted");
        let due = VERDICTS[reply.done.outcome as usize - 1];
        let count = |wanted: bool, full: bool| {
            let sorters = masks.iter().zip(&line.sorters);
            sorters
                .filter(|(mask, sorter)| due.is_in(**mask) == wanted && sorter.is_full() == full)
                .count()
        };
        let (wanted_full, wanted_room) = (count(true, true) > 0, count(true, false) > 0);
        if due == Verdict::TwoOn {
            self.two_on_full += u64::from(wanted_full);
            self.two_on_full_beside_room += u64::from(wanted_full && wanted_room);
        } else {
            self.crash += u64::from(wanted_full);
            self.crash_beside_room += u64::from(wanted_full && wanted_room);
        }
        if !wanted_full {
            self.several += u64::from(count(true, false) > 1);
            self.full_and_unwanted += u64::from(wanted_room && count(false, true) > 0);
        }
    }
}

#[test]
fn mixed_streams_meet_full_queues_and_six_sorters() {
    let mut met = Met::default();
    (1..=20).for_each(|seed| met.follow(seed, 30_000));
    println!("{met:?}");
    assert!(met.all_on > 0 && met.several > 0 && met.crash_beside_room > 0);
    assert!(met.full_and_unwanted > 0 && met.two_on_full_beside_room > 0);
}
