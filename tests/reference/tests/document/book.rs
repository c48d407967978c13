//! Demand 3 over generated streams: the book fed only the events and their
//! replies, and the balance of detected items.

use std::array;

use reference::event::Event;
use reference::generator;
use reference::line::{Item, Reply};
use reference::read::{self, Request};
use reference::refusal::Refusal;
use reference::sheet::Sheet;
use reference::stream::Program;
use reference::tally::Tally;

const PAGE: usize = 999_999;

struct Book {
    active: usize,
    /// For each code the verdicts (outcome, net, target) that stand on its page.
    pages: Vec<Vec<(i64, i64, i64)>>,
    chance: bool,
    /// Each code's target, of its last accepted store.
    targets: Vec<i64>,
}

impl Book {
    fn new() -> Book {
        Book { active: 0, pages: vec![Vec::new(); 100], chance: false, targets: vec![0; 100] }
    }

    /// Enters an event and its reply, and checks tallied and cancel.
    fn enter(&mut self, event: &Event, reply: &Result<Reply, Refusal>) {
        if *event == Event::Cancel {
            assert_eq!(reply.is_ok(), self.chance, "a cancel is accepted exactly at a chance");
        }
        let Ok(reply) = reply else { return };
        let verdict = (1..=8).contains(&reply.done.outcome);
        let put = verdict && self.pages[self.active].len() < PAGE;
        assert_eq!(reply.done.tallied, put, "tallied exactly when put on a page");
        if put {
            let target = self.targets[self.active];
            self.pages[self.active].push((reply.done.outcome, reply.done.net, target));
        }
        if verdict {
            self.chance = put;
        }
        self.turn(event);
    }

    fn turn(&mut self, event: &Event) {
        match *event {
            Event::Cancel => drop(self.pages[self.active].pop()),
            Event::Recall { code } => self.active = code as usize,
            Event::ClearAll => self.pages.iter_mut().for_each(Vec::clear),
            Event::ClearCode { code } => {
                self.pages[code as usize].clear();
                self.chance &= code as usize != self.active;
                return;
            }
            Event::Store { code, settings } => {
                self.targets[code as usize] = settings.target;
                return;
            }
            _ => return,
        }
        self.chance = false;
    }

    fn tally(&self, code: usize) -> Tally {
        let page = &self.pages[code];
        let nets = || page.iter().filter(|entry| entry.0 <= 5).map(|entry| entry.1);
        let mut counts = [0; 8];
        page.iter().for_each(|entry| counts[entry.0 as usize - 1] += 1);
        let graded = || page.iter().filter(|entry| entry.0 <= 5);
        let in_class = |k: i64| graded().filter(move |entry| holds(k, entry.1 - entry.2)).count();
        Tally {
            counts,
            number: nets().count() as i64,
            sum: nets().sum(),
            squares: nets().map(|net| net * net).sum(),
            largest: nets().max().unwrap_or(0),
            smallest: nets().min().unwrap_or(0),
            classes: array::from_fn(|k| in_class(k as i64) as i64),
        }
    }
}

/// Class k holds a net so far from the target: 11 wide, class 10 in the middle, 0 and 20 with all below and above.
fn holds(k: i64, from_target: i64) -> bool {
    let middle = 11 * (k - 10);
    (k == 0 || middle - 5 <= from_target) && (k == 20 || from_target <= middle + 5)
}

/// Detected items, by what became of them.
#[derive(Default)]
struct Balance {
    detected: i64,
    settled: i64,
    in_hand: i64,
}

impl Balance {
    fn enter(&mut self, reply: &Reply) {
        let done = reply.done;
        self.detected += i64::from(done.detected);
        self.settled += match done.outcome {
            0 => 0,
            7 => 2,
            _ => 1,
        };
        if done.detected || done.outcome != 0 {
            self.in_hand = i64::from(done.detected && done.outcome != 7);
        }
    }
}

fn follow(kind: &str, seed: u64, lines: u64) {
    let mut source = generator::source(kind, seed, lines).expect("a kind");
    let (mut program, mut book, mut balance) = (Program::fresh(), Book::new(), Balance::default());
    for _ in 0..lines {
        let Some(Request::Event(event)) = read::request(&source.next_line()) else { continue };
        let reply = program.line.apply(&mut program.memory, &event);
        book.enter(&event, &reply);
        if let Ok(reply) = &reply {
            balance.enter(reply);
        }
        assert_eq!(balance.detected, balance.settled + balance.in_hand);
        assert_eq!(program.line.item == Item::None, balance.in_hand == 0);
        assert_eq!(program.line.code, book.active);
    }
    for code in 0..100 {
        let tally = program.memory.tallies[code];
        assert_eq!(tally, book.tally(code), "code {code}");
        assert_eq!(tally.classes.iter().sum::<i64>(), tally.number, "code {code}");
        check_spread(&book, code);
    }
}

/// sd and sdp are the largest whole tenths with T-06's inequality.
fn check_spread(book: &Book, code: usize) {
    let tally = book.tally(code);
    let sheet = Sheet::of(code as i64, &tally, 0);
    let (n, s, q) = (tally.number as i128, tally.sum as i128, tally.squares as i128);
    for (figure, divisor) in [(sheet.sd, n * (n - 1)), (sheet.sdp, n * n)] {
        let fits = |figure: i128| figure * figure * divisor <= 100 * (n * q - s * s);
        if let Some(figure) = figure.map(i128::from) {
            assert!(fits(figure) && !fits(figure + 1), "code {code}");
        }
    }
}

#[test]
fn the_book_agrees_over_mixed_streams() {
    (1..=20).for_each(|seed| follow("mixed", seed, 20_000));
}

#[test]
fn the_book_agrees_over_damaged_streams() {
    (1..=10).for_each(|seed| follow("damaged", seed, 10_000));
}

#[test]
fn the_book_agrees_over_samples() {
    follow("samples", 1, 50_000);
}

#[test]
fn the_book_agrees_at_the_limit() {
    (1..=3).for_each(|seed| follow("limit", seed, 2_080_000));
}
