//! The kind `limit`: boxes as fast as a line takes them, until one tally is full
//! (about two million lines), then work at the limit.

use super::random::Random;
use super::Source;
use crate::event::WEIGHT;
use crate::read::{self, Request};
use crate::stream::Program;
use crate::tally::Tally;

/// Every verdict enters sorter 1; the other sorters are as on a fresh line.
const SETUP: &str = "mode=1 edge=1 tc=0 tw=0 ta=1 tf=0 ts1=9 to1=2 sort1=254 \
    ts2=100 to2=50 sort2=0 ts3=100 to3=50 sort3=0 ts4=100 to4=50 sort4=0 \
    ts5=100 to5=50 sort5=0 ts6=100 to6=50 sort6=0 stop=0 need=0";

/// What the boxes of a stream weigh.
enum Boxes {
    /// At and between the ends, some with a foreign signal.
    Any,
    /// All as heavy as a net can be: the largest sum and squares.
    Heaviest,
    /// Half of them as heavy and half as light as a net can be: the largest spread.
    Ends,
}

pub struct Limit {
    random: Random,
    boxes: Boxes,
    /// Follows the stream, to know when the tally is nearly full.
    program: Program,
    lines: u64,
    sensor: i64,
    /// The lines said so far between the heavy and the light half.
    turned: usize,
    /// The last line gave a verdict.
    judged: bool,
}

impl Limit {
    pub fn new(seed: u64) -> Limit {
        let (random, program) = (Random::new(seed), Program::fresh());
        let boxes = match seed % 3 {
            0 => Boxes::Any,
            1 => Boxes::Heaviest,
            _ => Boxes::Ends,
        };
        Limit { random, boxes, program, lines: 0, sensor: 0, turned: 0, judged: false }
    }

    /// The box of one tick is weighed on the next.
    fn sample(&mut self) -> String {
        self.sensor = 1 - self.sensor;
        let foreign = match self.boxes {
            Boxes::Any => i64::from(self.random.chance(20)),
            _ => 0,
        };
        let gross = match self.boxes {
            Boxes::Any => match self.random.between(0, 9) {
                0..=3 => 1,
                4..=7 => WEIGHT,
                _ => self.random.between(-WEIGHT / 40, WEIGHT),
            },
            Boxes::Ends if self.turned > 0 => 1,
            _ => WEIGHT,
        };
        self.tick(foreign, gross)
    }

    fn tick(&self, foreign: i64, gross: i64) -> String {
        format!("sensor={} emergency=0 safety=255 foreign={foreign} gross={gross}", self.sensor)
    }

    /// Another tare for the light half, on a line that was stopped and then emptied.
    fn turn(&mut self) -> String {
        self.turned += 1;
        match self.turned {
            1 | 2 => "CSTD".into(),
            3 => store(0, WEIGHT),
            4 => self.tick(0, 0),
            _ => "COPR".into(),
        }
    }

    fn text(&mut self) -> String {
        let tare = match self.boxes {
            Boxes::Any => 500_000, // so that the nets have either sign
            _ => 0,
        };
        let total = self.program.memory.tallies[0].total();
        let full = total > Tally::LIMIT - 5;
        let turning = matches!(self.boxes, Boxes::Ends) && total >= Tally::LIMIT / 2;
        match self.lines {
            1 => SETUP.into(),
            2 => store(0, tare),
            3 => store(1, tare),
            4 => "COPR".into(),
            _ if turning && self.turned < 5 => self.turn(),
            _ if full && self.judged && self.random.chance(500) => "CCAC".into(),
            _ if full && self.random.chance(50) => {
                let choices = ["CCAC", "report=0", "report=0", "CCOD0000", "CCOD0001", "CDTL0001"];
                self.random.pick(&choices).into()
            }
            _ => self.sample(),
        }
    }
}

fn store(code: i64, tare: i64) -> String {
    let limits = "target=0 lolo=-400000 lo=-300000 hi=300000 hihi=450000";
    format!("code={code} {limits} nearzero=0 tare={tare}")
}

impl Source for Limit {
    fn next_line(&mut self) -> Vec<u8> {
        self.lines += 1;
        let text = self.text().into_bytes();
        self.judged = false;
        if let Some(Request::Event(event)) = read::request(&text) {
            let Program { line, memory } = &mut self.program;
            let reply = line.apply(memory, &event);
            self.judged = reply.is_ok_and(|reply| (1..=8).contains(&reply.done.outcome));
        }
        text
    }
}
