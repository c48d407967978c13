//! The sample: one tick of 10 ms, its seven steps in order.

use crate::event::Sample;
use crate::line::{Done, Item, Line, Status};
use crate::memory::Memory;
use crate::refusal::Refusal;
use crate::tally::nearest;
use crate::verdict::Verdict;

impl Line {
    pub(crate) fn sample(&mut self, memory: &mut Memory, sample: &Sample) -> Result<Done, Refusal> {
        if !sample.in_range() {
            return Err(Refusal::VALUE);
        }
        let foreign_change = self.foreign_level == 0 && sample.foreign == 1;
        let edge = self.take_levels(sample); // step 1
        if let Some(ended) = self.take_emergency(sample.emergency) {
            return Ok(ended); // step 2
        }
        if self.setup.need & !self.safety != 0 {
            self.pause(1); // step 3
            return Ok(Done::default());
        }
        if self.setup.is_bench() {
            self.bench.tick(self.gross, memory.settings[self.code].nearzero);
        }
        for (sorter, set) in self.sorters.iter_mut().zip(&self.setup.sorters) {
            sorter.tick(set.to); // step 4
        }
        if !self.foreign.tick(foreign_change, self.setup.tf) {
            self.pause(7); // a ninth signal, after step 5 and before step 6
            return Ok(Done::default());
        }
        let weighed = self.weigh(memory); // step 6
        if self.status == Status::Running && self.has_box(memory, edge) {
            return Ok(self.detect(memory, weighed)); // step 7
        }
        Ok(weighed)
    }

    /// Step 1: keeps the levels, and settles the sensor, running or not.
    /// True when the settled level made the chosen edge.
    fn take_levels(&mut self, sample: &Sample) -> bool {
        self.gross = sample.gross;
        self.safety = sample.safety;
        self.foreign_level = sample.foreign;
        if sample.sensor == self.settled {
            self.differing = 0;
            return false;
        }
        self.differing += 1;
        if self.differing < self.setup.tc.max(1) {
            return false;
        }
        self.settled = sample.sensor;
        self.differing = 0;
        let rose = self.settled == 1;
        rose == (self.setup.edge == 1)
    }

    /// Step 2: what the sample did, if it ends here.
    fn take_emergency(&mut self, emergency: i64) -> Option<Done> {
        if emergency == 1 {
            return Some(self.rest(Status::Emergency));
        }
        if self.status == Status::Emergency {
            return Some(self.rest(Status::Stopped));
        }
        (self.status != Status::Running).then(Done::default)
    }

    /// Step 6: the item in hand waits, is averaged, and on the last tick judged.
    fn weigh(&mut self, memory: &mut Memory) -> Done {
        match self.item {
            Item::None => {}
            Item::Waiting { left: 1 } => self.item = self.averaging_item(),
            Item::Waiting { left } => self.item = Item::Waiting { left: left - 1 },
            Item::Averaging { left: 1, sum } => {
                self.item = Item::None;
                return self.judge(memory, nearest(sum + self.gross, self.setup.ta));
            }
            Item::Averaging { left, sum } => {
                self.item = Item::Averaging { left: left - 1, sum: sum + self.gross };
            }
        }
        Done::default()
    }

    /// Averaging begins on the tick after the wait's last, or after detection.
    fn averaging_item(&self) -> Item {
        Item::Averaging { left: self.setup.ta, sum: 0 }
    }

    /// Step 7: whether a box is there to detect, by the sensor's edge or lifted on by hand.
    fn has_box(&mut self, memory: &Memory, edge: bool) -> bool {
        if !self.setup.is_bench() {
            return edge;
        }
        let nearzero = memory.settings[self.code].nearzero;
        self.item == Item::None && self.bench.detects(self.gross, nearzero)
    }

    /// A new item in hand, beside what step 6 did; with an item still
    /// in hand, both become one two-on verdict.
    fn detect(&mut self, memory: &mut Memory, weighed: Done) -> Done {
        if self.item != Item::None {
            self.item = Item::None;
            return Done { detected: true, ..self.give(memory, Verdict::TwoOn, 0) };
        }
        self.item = match self.setup.tw {
            0 => self.averaging_item(),
            left => Item::Waiting { left },
        };
        Done { detected: true, ..weighed }
    }

    /// The verdict due on the mean m, under the active code of this tick.
    fn judge(&mut self, memory: &mut Memory, m: i64) -> Done {
        let settings = &memory.settings[self.code];
        if m <= settings.nearzero {
            return Done { outcome: Done::DISMISSED, ..Done::default() };
        }
        let net = m - settings.tare;
        let grade = Verdict::grade(net, settings);
        let due = if self.foreign.use_up() { Verdict::Foreign } else { grade };
        // Only the queues it would enter count; as crash it then enters none, crash having no sort bit.
        let mut wanted = self.sorters.iter().zip(&self.setup.sorters);
        if wanted.any(|(sorter, set)| due.is_in(set.sort) && sorter.is_full()) {
            return self.give(memory, Verdict::Crash, 0);
        }
        self.give(memory, due, if due.is_graded() { net } else { 0 })
    }

    /// Gives a verdict: queued by each sort bit, pausing by its stop bit, and tallied.
    fn give(&mut self, memory: &mut Memory, verdict: Verdict, net: i64) -> Done {
        for (sorter, set) in self.sorters.iter_mut().zip(&self.setup.sorters) {
            if verdict.is_in(set.sort) {
                sorter.queue(set.ts);
            }
        }
        if verdict.is_in(self.setup.stop) {
            self.pause(verdict.error());
        }
        let target = memory.settings[self.code].target;
        let tally = &mut memory.tallies[self.code];
        let before = *tally;
        let tallied = tally.add(verdict, net, target);
        self.kept = tallied.then_some(before);
        Done { detected: false, outcome: verdict as i64, net, tallied }
    }
}
