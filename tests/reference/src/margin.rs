//! T-12, samples known within a margin: what the program `margin` must print.
//!
//! The possible outcomes are found by trying: which sums the samples can have, one
//! sample after the other, and what step 6 makes of each. Where the sums would be too
//! many to note each, they are all those between the least and the largest.

use crate::event::{is_code, is_weight, Event, Settings, WEIGHT};
use crate::read::{fields, request, Request, LONGEST};
use crate::tally::nearest;
use crate::verdict::Verdict;

const MOST_SAMPLES: usize = 9_999;
const WIDEST: i64 = 1_000;

/// So many sums are noted one by one.
const NOTED: i64 = 100_000;

const NAMES: [(usize, &str); 6] =
    [(1, "lolo"), (2, "lo"), (3, "ok"), (4, "hi"), (5, "hihi"), (9, "dismissed")];

/// The outcomes that can be, by their numbers, or a refusal.
pub type Answer = Result<[bool; 10], u64>;

enum Line {
    Margin(i64),
    Store(i64, Settings),
    Gross(i64),
}

/// A call that is being read.
struct Open {
    e: i64,
    store: Option<(i64, Settings)>,
    samples: Vec<i64>,
}

/// What the program must print over an input.
pub fn printed(input: &[u8]) -> String {
    let mut text = String::new();
    let mut open: Option<Open> = None;
    let mut lines: Vec<&[u8]> = input.split(|&byte| byte == b'\n').collect();
    if lines.last().is_some_and(|last| last.is_empty()) {
        lines.pop(); // nothing behind the last LF is no line
    }
    for line in lines {
        match (read(line), &mut open) {
            (Some(Line::Margin(e)), _) => {
                text.extend(open.take().map(|call| call.line()));
                open = Some(Open { e, store: None, samples: Vec::new() });
            }
            (Some(Line::Store(code, settings)), Some(call)) if call.store.is_none() => {
                call.store = Some((code, settings));
            }
            (Some(Line::Gross(gross)), Some(call)) if call.store.is_some() => {
                call.samples.push(gross);
            }
            _ => text += "refused=1 input=0\n",
        }
    }
    text.extend(open.map(|call| call.line()));
    text
}

fn read(line: &[u8]) -> Option<Line> {
    if line.len() > LONGEST {
        return None;
    }
    if let Some([e]) = fields(line, ["e="]) {
        return Some(Line::Margin(e));
    }
    if let Some([gross]) = fields(line, ["gross="]) {
        return Some(Line::Gross(gross));
    }
    match request(line)? {
        Request::Event(Event::Store { code, settings }) => Some(Line::Store(code, settings)),
        _ => None,
    }
}

impl Open {
    fn line(&self) -> String {
        let answer = match &self.store {
            _ if self.samples.is_empty() || self.samples.len() > MOST_SAMPLES => Err(15),
            Some((code, settings)) if is_code(*code) => possible(&self.samples, self.e, settings),
            _ => Err(2),
        };
        match answer {
            Err(number) => format!("refused={number} input=0\n"),
            Ok(set) => {
                let names: Vec<&str> = NAMES
                    .iter()
                    .filter(|(outcome, _)| set[*outcome])
                    .map(|(_, name)| *name)
                    .collect();
                format!("outcomes={}\n", names.join(","))
            }
        }
    }
}

/// The outcomes that some whole samples would give, each within e of its own and a weight.
pub fn possible(samples: &[i64], e: i64, settings: &Settings) -> Answer {
    if samples.is_empty() || samples.len() > MOST_SAMPLES {
        return Err(15);
    }
    let ranged = samples.iter().copied().all(is_weight) && (0..=WIDEST).contains(&e);
    if !ranged || !settings.in_range() {
        return Err(2);
    }
    if settings.contradicts() {
        return Err(4);
    }
    let mut set = [false; 10];
    for sum in sums(samples, e) {
        set[outcome(sum, samples.len() as i64, settings)] = true;
    }
    Ok(set)
}

/// Step 6 with no foreign signal and an empty queue.
pub fn outcome(sum: i64, count: i64, settings: &Settings) -> usize {
    let m = nearest(sum, count);
    if m <= settings.nearzero {
        9
    } else {
        Verdict::grade(m - settings.tare, settings) as usize
    }
}

/// The sums that the samples can have.
fn sums(samples: &[i64], e: i64) -> Vec<i64> {
    let ends = |x: &i64| ((x - e).max(-WEIGHT), (x + e).min(WEIGHT));
    let (least, most) =
        samples.iter().map(ends).fold((0, 0), |(a, b), (low, high)| (a + low, b + high));
    if most - least >= NOTED || samples.len() > 300 {
        return spread(least, most, samples.len() as i64);
    }
    // reached[d]: a sum that is d above the least of the samples so far
    let mut reached = vec![false; (most - least) as usize + 1];
    reached[0] = true;
    for (low, high) in samples.iter().map(ends) {
        let width = (high - low) as usize;
        let mut last = None; // the last sum before this sample that is not above d
        let before = reached.clone();
        for (d, now) in reached.iter_mut().enumerate() {
            if before[d] {
                last = Some(d);
            }
            *now = last.is_some_and(|last| d - last <= width);
        }
    }
    (0..=most - least).filter(|&d| reached[d as usize]).map(|d| least + d).collect()
}

/// The sums from the least to the most: both, and one for each mean between.
fn spread(least: i64, most: i64, count: i64) -> Vec<i64> {
    let mut sums = vec![least, most];
    sums.extend(
        (nearest(least, count)..=nearest(most, count))
            .map(|m| m * count)
            .filter(|sum| (least..=most).contains(sum)),
    );
    sums
}
