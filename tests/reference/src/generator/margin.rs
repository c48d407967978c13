//! The kind `margin`: calls of the program `margin`, with samples, margins and limits of every sort.

use std::collections::VecDeque;

use super::damage::damage;
use super::random::Random;
use super::Source;

const WEIGHT: i64 = 999_999;

/// How the samples of a call lie.
#[derive(Clone, Copy)]
enum Sort {
    /// a few about the limits, with a margin of about their distance
    Limits,
    /// their mean on a limit or half a division beside it
    OnLimit,
    /// at the ends of the weights
    Ends,
    /// about nearzero
    Zero,
    /// at the most samples and past it
    Many,
}

pub struct Margin {
    random: Random,
    lines: VecDeque<Vec<u8>>,
}

struct Limits {
    lolo: i64,
    lo: i64,
    target: i64,
    hi: i64,
    hihi: i64,
    nearzero: i64,
    tare: i64,
}

impl Margin {
    pub fn new(seed: u64) -> Margin {
        let mut margin = Margin { random: Random::new(seed), lines: VecDeque::new() };
        if seed % 5 == 1 {
            margin.out_of_place(); // before the first call
        }
        margin
    }

    fn call(&mut self) {
        let sorts = [
            (400, Sort::Limits),
            (250, Sort::OnLimit),
            (150, Sort::Ends),
            (198, Sort::Zero),
            (2, Sort::Many),
        ];
        let sort = self.random.weighted(&sorts);
        let limits = self.limits(sort);
        let e = self.margin(sort);
        let samples = self.samples(sort, &limits);
        self.push(format!("e={e}"));
        if self.random.chance(40) {
            self.out_of_place();
        }
        if self.random.chance(980) {
            let store = self.store(&limits);
            self.push(store);
        }
        for gross in samples {
            self.gross(gross);
        }
    }

    fn margin(&mut self, sort: Sort) -> String {
        if self.random.chance(40) {
            let wrong = [
                "-1",
                "1001",
                "1000000000",
                "-99999999999999999999",
                "4294967296",
                "18446744073709551616",
            ];
            return self.random.pick(&wrong).to_string();
        }
        let e = match sort {
            Sort::Many => self.random.pick(&[0, 1, 1_000]),
            _ => {
                let most = self.random.pick(&[0, 1, 3, 12, 100, 1_000]);
                self.random.between(most / 2, most)
            }
        };
        e.to_string()
    }

    /// Limits about a target, close together or equal in many calls.
    fn limits(&mut self, sort: Sort) -> Limits {
        let target = match sort {
            Sort::Ends => self.random.pick(&[WEIGHT - 3, 3 - WEIGHT, 0]),
            _ => self.random.between(-50, 2_000),
        };
        let step = self.random.pick(&[0, 1, 2, 9, 400]);
        let mut less = |from: i64| (from - self.random.between(0, step)).max(-WEIGHT);
        let lo = less(target);
        let lolo = less(lo);
        let mut more = |from: i64| (from + self.random.between(0, step)).min(WEIGHT);
        let hi = more(target);
        let hihi = more(hi);
        let nearzero = match sort {
            Sort::Ends => self.random.pick(&[0, 5, WEIGHT - 2, WEIGHT]),
            Sort::Zero => self.random.between(0, 60),
            _ => self.random.pick(&[0, 100, 1_000]),
        };
        let tare = match sort {
            Sort::Ends => self.random.pick(&[0, 7, WEIGHT]),
            _ => self.random.pick(&[0, 0, 5, 900]),
        };
        Limits { lolo, lo, target, hi, hihi, nearzero, tare }
    }

    fn samples(&mut self, sort: Sort, limits: &Limits) -> Vec<i64> {
        let count = match sort {
            Sort::Many => self.random.between(9_997, 10_003),
            _ => self.random.weighted(&[(60, 0), (300, 1), (300, 2), (500, 9), (200, 40)]),
        };
        let count = if count > 2 && count < 9_000 { self.random.between(3, count) } else { count };
        let edges = [limits.lolo, limits.lo, limits.target, limits.hi, limits.hihi];
        let edge = self.random.pick(&edges) + limits.tare + self.random.between(-1, 1);
        let mut samples: Vec<i64> = (0..count)
            .map(|_| match sort {
                Sort::Limits | Sort::Many => edge + self.random.between(-30, 30),
                Sort::OnLimit => edge,
                Sort::Ends => {
                    let end = self.random.pick(&[-WEIGHT, WEIGHT, edge]);
                    end + self.random.between(-2, 2)
                }
                Sort::Zero => limits.nearzero + self.random.between(-3, 3),
            })
            .collect();
        if let (Sort::OnLimit, Some(first)) = (sort, samples.first_mut()) {
            *first += self.random.pick(&[0, count / 2, count / 2 + 1, -count / 2, 1, -1]);
        }
        // beyond the weights in some calls only
        if !self.random.chance(60) {
            samples.iter_mut().for_each(|x| *x = (*x).clamp(-WEIGHT, WEIGHT));
        }
        samples
    }

    fn store(&mut self, limits: &Limits) -> String {
        let Limits { lolo, lo, target, hi, hihi, nearzero, tare } = *limits;
        let mut values = [self.random.between(0, 99), target, lolo, lo, hi, hihi, nearzero, tare];
        if self.random.chance(50) {
            let place = self.random.below(values.len());
            values[place] = self.random.pick(&[-1, 100, WEIGHT + 1, -WEIGHT - 1, 5_000_000_000]);
        }
        if self.random.chance(50) {
            let (one, other) = (1 + self.random.below(5), 1 + self.random.below(5));
            values.swap(one, other); // limits out of order
        }
        let keys = ["code", "target", "lolo", "lo", "hi", "hihi", "nearzero", "tare"];
        let fields: Vec<String> =
            keys.iter().zip(values).map(|(key, value)| format!("{key}={value}")).collect();
        fields.join(" ")
    }

    fn gross(&mut self, gross: i64) {
        match self.random.between(0, 1_999) {
            0 => self.push("gross=99999999999999999999".to_string()),
            1 => self.out_of_place(),
            2..=9 => {
                let mut text = damage(format!("gross={gross}").into_bytes(), &mut self.random);
                text.iter_mut().filter(|byte| **byte == b'\n').for_each(|byte| *byte = b'\r');
                self.lines.push_back(text);
            }
            _ => self.push(format!("gross={gross}")),
        }
    }

    /// A line that has no place before the settings, or behind them, or anywhere.
    fn out_of_place(&mut self) {
        let lines = [
            "gross=5",
            "code=0 target=0 lolo=0 lo=0 hi=0 hihi=0 nearzero=0 tare=0",
            "COPR",
            "report=0",
            "sensor=1 emergency=0 safety=255 foreign=0 gross=500",
            "e=",
            "",
        ];
        let line = self.random.pick(&lines).to_string();
        self.push(line);
    }

    fn push(&mut self, text: String) {
        self.lines.push_back(text.into_bytes());
    }
}

impl Source for Margin {
    fn next_line(&mut self) -> Vec<u8> {
        while self.lines.is_empty() {
            self.call();
        }
        self.lines.pop_front().unwrap_or_default()
    }
}
