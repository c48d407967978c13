//! The kind `exits`: calls of the program `exits`, with windows and lists of every sort.

use std::collections::VecDeque;

use super::damage::damage;
use super::random::Random;
use super::Source;

/// How the ticks of a call lie.
#[derive(Clone, Copy)]
enum Sort {
    /// a few, close together: many pairings
    Crowded,
    /// each signal about its verdict's window, some lost or doubled
    Belt,
    /// at both ends of the window and one beside
    Ends,
    /// up to the largest tick and past it
    Late,
    /// at the longest list and past it
    Long,
}

pub struct Exits {
    random: Random,
    lines: VecDeque<Vec<u8>>,
}

impl Exits {
    pub fn new(seed: u64) -> Exits {
        Exits { random: Random::new(seed), lines: VecDeque::new() }
    }

    fn call(&mut self) {
        let sorts = [
            (40, Sort::Crowded),
            (40, Sort::Belt),
            (12, Sort::Ends),
            (7, Sort::Late),
            (1, Sort::Long),
        ];
        let sort = self.random.weighted(&sorts);
        let (a, b) = self.window(sort);
        let (mut verdicts, mut signals) = self.lists(sort, a, b);
        if self.random.chance(60) {
            self.spoil(&mut verdicts);
        }
        if self.random.chance(60) {
            self.spoil(&mut signals);
        }
        let window =
            if self.random.chance(60) { self.bad_window() } else { format!("a={a} b={b}") };
        self.lines.push_back(window.into_bytes());
        self.mix(&verdicts, &signals);
    }

    fn window(&mut self, sort: Sort) -> (i64, i64) {
        let most = if let Sort::Crowded = sort { 6 } else { self.random.pick(&[9, 300, 9_999]) };
        let b = self.random.between(0, most);
        (self.random.between(0, b), b)
    }

    fn bad_window(&mut self) -> String {
        let windows = [
            "a=-1 b=3",
            "a=4 b=3",
            "a=0 b=10000",
            "a=0 b=-1",
            "a=10000 b=10000",
            "a=0 b=99999999999999999999999999",
            "a=1000000000 b=1000000000",
        ];
        self.random.pick(&windows).to_string()
    }

    fn lists(&mut self, sort: Sort, a: i64, b: i64) -> (Vec<i64>, Vec<i64>) {
        let (mut verdicts, mut signals) = (Vec::new(), Vec::new());
        let count = match sort {
            Sort::Long => self.random.between(4_090, 4_098),
            _ => self.random.between(0, 30),
        };
        let mut tick = if let Sort::Late = sort {
            1_000_000_003 - 4 * count
        } else {
            self.random.between(0, 50)
        };
        for _ in 0..count {
            verdicts.push(tick);
            let ways = match sort {
                Sort::Ends => [a, b, a - 1, b + 1],
                _ => [
                    self.random.between(a, b),
                    self.random.between(a, b + 1),
                    a,
                    self.random.between(0, b + 9),
                ],
            };
            signals.extend(
                (0..self.random.between(0, 2)).map(|way| (tick + ways[way as usize]).max(0)),
            );
            if self.random.chance(300) {
                signals.push((tick + self.random.pick(&ways)).max(0));
            }
            tick += match sort {
                Sort::Crowded => self.random.between(1, 3),
                Sort::Late => self.random.between(1, 4),
                _ => self.random.between(1, 2 * b + 3),
            };
        }
        signals.sort_unstable();
        signals.dedup();
        (verdicts, signals)
    }

    /// An entry out of its place, or twice.
    fn spoil(&mut self, list: &mut [i64]) {
        if list.len() > 1 {
            let place = 1 + self.random.below(list.len() - 1);
            list[place] = list[place - 1] - self.random.between(0, 1).min(list[place - 1]);
        }
    }

    /// The lines of both lists in any order between them, now and then one damaged or with a tick beyond 64 bits.
    fn mix(&mut self, verdicts: &[i64], signals: &[i64]) {
        let (mut i, mut j) = (0, 0);
        while i + j < verdicts.len() + signals.len() {
            let verdict = i < verdicts.len() && (j == signals.len() || self.random.chance(500));
            let (key, tick) =
                if verdict { ("verdict", verdicts[i]) } else { ("signal", signals[j]) };
            let (mut text, rare) =
                (format!("{key}={tick}").into_bytes(), self.random.between(0, 1_999));
            match rare {
                0 => text = format!("{key}={}", self.beyond()).into_bytes(),
                1..=9 => {
                    text = damage(text, &mut self.random);
                    text.iter_mut().filter(|byte| **byte == b'\n').for_each(|byte| *byte = b'\r');
                }
                _ if verdict => i += 1,
                _ => j += 1,
            }
            self.lines.push_back(text);
        }
    }

    fn beyond(&mut self) -> &'static str {
        self.random.pick(&[
            "18446744073709551615",
            "18446744073709551616",
            "99999999999999999999999",
            "-1",
        ])
    }
}

impl Source for Exits {
    fn next_line(&mut self) -> Vec<u8> {
        while self.lines.is_empty() {
            self.call();
        }
        self.lines.pop_front().unwrap_or_default()
    }
}
