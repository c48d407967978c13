//! The line: its record, the reply, and every event but the sample.

use crate::bench::Bench;
use crate::event::{is_code, Event, Settings, Setup, SORTERS};
use crate::foreign::Foreign;
use crate::memory::Memory;
use crate::refusal::Refusal;
use crate::sorter::Sorter;
use crate::tally::Tally;

/// The number of a status is the one the reply prints.
#[derive(Clone, Copy, Debug, PartialEq, Eq)]
pub enum Status {
    Stopped = 0,
    Running = 1,
    Paused = 2,
    Emergency = 3,
}

/// The item in hand.
#[derive(Clone, Copy, Debug, PartialEq, Eq)]
pub enum Item {
    None,
    Waiting { left: i64 },
    Averaging { left: i64, sum: i64 },
}

#[derive(Clone, Debug)]
pub struct Line {
    pub status: Status,
    /// The active code.
    pub code: usize,
    pub setup: Setup,
    /// The settled sensor level.
    pub settled: i64,
    /// Ticks in a row differing from the settled level.
    pub differing: i64,
    /// Foreign level, gross and safety of the last sample.
    pub foreign_level: i64,
    pub gross: i64,
    pub safety: i64,
    pub foreign: Foreign,
    pub item: Item,
    pub bench: Bench,
    pub sorters: [Sorter; SORTERS],
    pub error: Option<u8>,
    /// The active tally as before the last verdict: the chance to cancel.
    pub kept: Option<Tally>,
}

/// What one event did.
#[derive(Clone, Copy, Debug, Default, PartialEq, Eq)]
pub struct Done {
    pub detected: bool,
    pub outcome: i64,
    pub net: i64,
    pub tallied: bool,
}

impl Done {
    pub const DISMISSED: i64 = 9;
    pub const ABANDONED: i64 = 10;
}

/// What one event did, and how the line is after it.
#[derive(Clone, Copy, Debug, PartialEq, Eq)]
pub struct Reply {
    pub status: Status,
    pub busy: bool,
    pub conveyor: bool,
    /// Bit k-1 for sorter k.
    pub sorter: u8,
    pub done: Done,
    pub error: Option<u8>,
}

impl Line {
    pub fn fresh() -> Line {
        Line {
            status: Status::Stopped,
            code: 0,
            setup: Setup::FRESH,
            settled: 0,
            differing: 0,
            foreign_level: 0,
            gross: 0,
            safety: 255,
            foreign: Foreign::default(),
            item: Item::None,
            bench: Bench::default(),
            sorters: [Sorter::default(); SORTERS],
            error: None,
            kept: None,
        }
    }

    pub fn apply(&mut self, memory: &mut Memory, event: &Event) -> Result<Reply, Refusal> {
        let done = match event {
            Event::Sample(sample) => self.sample(memory, sample)?,
            Event::Run => self.run(memory)?,
            Event::Stop => self.stop()?,
            Event::Emergency => self.rest(Status::Emergency),
            Event::Recall { code } => self.recall(*code)?,
            Event::Cancel => self.cancel(memory)?,
            Event::ClearCode { code } => self.clear_code(memory, *code)?,
            Event::ClearAll => self.clear_all(memory),
            Event::ErrorReset => self.error_reset(),
            Event::NoOperation => Done::default(),
            Event::Setup(setup) => self.set_up(setup)?,
            Event::Store { code, settings } => self.store(memory, *code, settings)?,
        };
        Ok(self.reply(done))
    }

    fn reply(&self, done: Done) -> Reply {
        let running = self.status == Status::Running;
        let empty = self.item == Item::None;
        Reply {
            status: self.status,
            busy: !empty || self.is_sorting(),
            conveyor: running && self.conveys(empty),
            sorter: if running { self.sorters_on() } else { 0 },
            done,
            error: self.error,
        }
    }

    /// Whether the conveyor of a running line moves.
    fn conveys(&self, empty: bool) -> bool {
        match self.setup.mode {
            1 => true,
            2 => empty,
            _ => false, // bench mode
        }
    }

    fn is_sorting(&self) -> bool {
        self.sorters.iter().any(Sorter::is_busy)
    }

    fn sorters_on(&self) -> u8 {
        let bits = self.sorters.iter().enumerate();
        bits.fold(0, |on, (k, sorter)| on | u8::from(sorter.is_on()) << k)
    }

    /// Entering status 0 or 3: an item in hand is abandoned, the queues
    /// emptied, the sorters off, the error none. Foreign signals are kept.
    pub(crate) fn rest(&mut self, status: Status) -> Done {
        let abandoned = self.item != Item::None;
        self.status = status;
        self.item = Item::None;
        self.sorters = [Sorter::default(); SORTERS];
        self.error = None;
        Done { outcome: if abandoned { Done::ABANDONED } else { 0 }, ..Done::default() }
    }

    /// Running gives paused, with what stands in hand, queue and timers held.
    pub(crate) fn pause(&mut self, error: u8) {
        self.status = Status::Paused;
        self.error = Some(error);
    }

    fn run(&mut self, memory: &Memory) -> Result<Done, Refusal> {
        match self.status {
            Status::Running => return Err(Refusal::STATUS),
            Status::Emergency => return Err(Refusal::EMERGENCY),
            Status::Stopped | Status::Paused => {}
        }
        let off = self.setup.need & !self.safety;
        if off != 0 {
            return Err(Refusal::safety(off));
        }
        let nearzero = memory.settings[self.code].nearzero;
        if self.status == Status::Stopped && self.gross > nearzero {
            return Err(Refusal::OCCUPIED);
        }
        self.bench.run(self.status == Status::Stopped);
        self.status = Status::Running;
        self.error = None;
        Ok(Done::default())
    }

    fn stop(&mut self) -> Result<Done, Refusal> {
        let busy = self.item != Item::None || self.is_sorting();
        match self.status {
            Status::Emergency => Err(Refusal::EMERGENCY),
            Status::Running if busy => {
                self.pause(0);
                Ok(Done::default())
            }
            _ => Ok(self.rest(Status::Stopped)),
        }
    }

    /// Ends the chance to cancel, even for the same code.
    fn recall(&mut self, code: i64) -> Result<Done, Refusal> {
        if !is_code(code) {
            return Err(Refusal::VALUE);
        }
        self.code = code as usize;
        self.kept = None;
        Ok(Done::default())
    }

    fn cancel(&mut self, memory: &mut Memory) -> Result<Done, Refusal> {
        let before = self.kept.take().ok_or(Refusal::NOTHING)?;
        memory.tallies[self.code] = before;
        Ok(Done::default())
    }

    /// A chance to cancel is always one on the active code, as recall ends it.
    fn clear_code(&mut self, memory: &mut Memory, code: i64) -> Result<Done, Refusal> {
        if !is_code(code) {
            return Err(Refusal::VALUE);
        }
        memory.tallies[code as usize] = Tally::default();
        if code as usize == self.code {
            self.kept = None;
        }
        Ok(Done::default())
    }

    fn clear_all(&mut self, memory: &mut Memory) -> Done {
        memory.tallies.fill(Tally::default());
        self.kept = None;
        Done::default()
    }

    fn error_reset(&mut self) -> Done {
        self.error = None;
        Done::default()
    }

    fn set_up(&mut self, setup: &Setup) -> Result<Done, Refusal> {
        if !setup.in_range() {
            return Err(Refusal::VALUE);
        }
        match self.status {
            Status::Running => return Err(Refusal::STATUS),
            Status::Emergency => return Err(Refusal::EMERGENCY),
            Status::Paused => return Err(Refusal::PAUSED),
            Status::Stopped => {}
        }
        if setup.contradicts() {
            return Err(Refusal::CONTRADICTION);
        }
        self.setup = *setup;
        Ok(Done::default())
    }

    fn store(
        &mut self,
        memory: &mut Memory,
        code: i64,
        settings: &Settings,
    ) -> Result<Done, Refusal> {
        if !is_code(code) || !settings.in_range() {
            return Err(Refusal::VALUE);
        }
        if self.status == Status::Running {
            return Err(Refusal::STATUS);
        }
        if settings.contradicts() {
            return Err(Refusal::CONTRADICTION);
        }
        memory.settings[code as usize] = *settings;
        Ok(Done::default())
    }
}
