//! T-13, the exit eye against the verdicts: what the program `exits` must print.
//!
//! Which largest pairing a call prints is free. So the reference prints none: it
//! computes how many pairs there are, by augmenting paths, and checks what another
//! program printed.

use crate::read::LONGEST;

const LONGEST_LIST: usize = 4_096;
const LAST_TICK: u64 = 1_000_000_000;
const WIDEST_WINDOW: u64 = 9_999;

/// What one call or one line must print.
#[derive(Clone, Debug, PartialEq, Eq)]
pub enum Expected {
    Refused(u64),
    Paired(Call),
}

/// A call whose window and lists are in order.
#[derive(Clone, Debug, PartialEq, Eq)]
pub struct Call {
    pub verdicts: Vec<u64>,
    pub signals: Vec<u64>,
    pub a: u64,
    pub b: u64,
}

/// A number as it stands in a line.
#[derive(Clone, Copy, Debug, PartialEq, Eq)]
enum Number {
    /// 64 bits hold it.
    Held(u64),
    /// Too large for them, or negative.
    Beyond,
}

enum Line {
    Window(Number, Number),
    Verdict(Number),
    Signal(Number),
}

/// A call that is being read.
struct Open {
    window: (Number, Number),
    verdicts: Vec<Number>,
    signals: Vec<Number>,
}

/// What the program must print over an input, in order.
pub fn expected(input: &[u8]) -> Vec<Expected> {
    let mut all = Vec::new();
    let mut open: Option<Open> = None;
    let mut lines: Vec<&[u8]> = input.split(|&byte| byte == b'\n').collect();
    if lines.last().is_some_and(|last| last.is_empty()) {
        lines.pop(); // nothing behind the last LF is no line
    }
    for text in lines {
        match (read(text), &mut open) {
            (Some(Line::Window(a, b)), _) => {
                all.extend(open.take().map(|call| answer(&call)));
                open = Some(Open { window: (a, b), verdicts: Vec::new(), signals: Vec::new() });
            }
            (Some(Line::Verdict(tick)), Some(call)) => call.verdicts.push(tick),
            (Some(Line::Signal(tick)), Some(call)) => call.signals.push(tick),
            _ => all.push(Expected::Refused(1)),
        }
    }
    all.extend(open.map(|call| answer(&call)));
    all
}

fn answer(call: &Open) -> Expected {
    let (Some(verdicts), Some(signals)) = (held(&call.verdicts), held(&call.signals)) else {
        return Expected::Refused(2);
    };
    if !in_order(&verdicts) || !in_order(&signals) {
        return Expected::Refused(16);
    }
    if verdicts.iter().chain(&signals).any(|&tick| tick > LAST_TICK) {
        return Expected::Refused(2);
    }
    match call.window {
        (Number::Held(a), Number::Held(b)) if a <= b && b <= WIDEST_WINDOW => {
            Expected::Paired(Call { verdicts, signals, a, b })
        }
        _ => Expected::Refused(17),
    }
}

/// The ticks of a list, if 64 bits hold each of them.
fn held(list: &[Number]) -> Option<Vec<u64>> {
    let ticks = list.iter().map(|number| match number {
        Number::Held(tick) => Some(*tick),
        Number::Beyond => None,
    });
    ticks.collect()
}

fn in_order(list: &[u64]) -> bool {
    list.len() <= LONGEST_LIST && list.windows(2).all(|two| two[0] < two[1])
}

fn read(text: &[u8]) -> Option<Line> {
    if text.len() > LONGEST {
        return None;
    }
    if let Some(rest) = text.strip_prefix(b"verdict=") {
        return number(rest).map(Line::Verdict);
    }
    if let Some(rest) = text.strip_prefix(b"signal=") {
        return number(rest).map(Line::Signal);
    }
    let rest = text.strip_prefix(b"a=")?;
    let space = rest.iter().position(|&byte| byte == b' ')?;
    let a = number(&rest[..space])?;
    let b = number(rest[space..].strip_prefix(b" b=")?)?;
    Some(Line::Window(a, b))
}

/// All of the text as a number: no plus, leading zero or -0.
fn number(text: &[u8]) -> Option<Number> {
    let negative = text.first() == Some(&b'-');
    let digits = &text[usize::from(negative)..];
    let plain = !digits.is_empty() && digits.iter().all(u8::is_ascii_digit);
    let zero_first = digits.first() == Some(&b'0');
    if !plain || zero_first && (digits.len() > 1 || negative) {
        return None;
    }
    let size = std::str::from_utf8(digits).ok()?.parse::<u64>();
    Some(match size {
        Ok(size) if !negative => Number::Held(size),
        _ => Number::Beyond,
    })
}

impl Call {
    /// The places of the signals in a verdict's window.
    fn window(&self, verdict: u64) -> std::ops::Range<usize> {
        let first = self.signals.partition_point(|&signal| signal < verdict + self.a);
        let end = self.signals.partition_point(|&signal| signal <= verdict + self.b);
        first..end
    }

    /// How many pairs a largest pairing has, by augmenting paths.
    pub fn most_pairs(&self) -> usize {
        let mut partners: Vec<Option<usize>> = vec![None; self.signals.len()];
        let mut pairs = 0;
        for verdict in 0..self.verdicts.len() {
            let mut seen = vec![false; self.signals.len()];
            pairs += usize::from(self.augment(verdict, &mut partners, &mut seen));
        }
        pairs
    }

    /// Finds the verdict a signal, if need be by giving others another one. The path is
    /// kept by hand, since it may be as long as the list.
    fn augment(&self, verdict: usize, partners: &mut [Option<usize>], seen: &mut [bool]) -> bool {
        let mut path = vec![(verdict, self.window(self.verdicts[verdict]))];
        let mut taken: Vec<usize> = Vec::new(); // the signal by which each step was left
        while let Some((_, window)) = path.last_mut() {
            let Some(signal) = window.find(|&signal| !seen[signal]) else {
                path.pop();
                taken.pop();
                continue;
            };
            seen[signal] = true;
            taken.push(signal);
            let Some(other) = partners[signal] else {
                for ((verdict, _), signal) in path.iter().zip(&taken) {
                    partners[*signal] = Some(*verdict);
                }
                return true;
            };
            path.push((other, self.window(self.verdicts[other])));
        }
        false
    }

    /// Checks the lines that were printed for the call, and gives how many they are.
    fn check(&self, lines: &[&str]) -> Result<usize, String> {
        let most = self.most_pairs();
        let mut last_verdict = None;
        let mut used = vec![false; self.signals.len()];
        for place in 0..most {
            let line = lines.get(place).ok_or("a pair is missing")?;
            let [verdict, signal] = pair(line).ok_or(format!("no pair: {line}"))?;
            let known = self.verdicts.binary_search(&verdict).is_ok();
            let fits = verdict + self.a <= signal && signal <= verdict + self.b;
            let Ok(of) = self.signals.binary_search(&signal) else {
                return Err(format!("no signal: {line}"));
            };
            if !known || !fits || used[of] || last_verdict >= Some(verdict) {
                return Err(format!("not in the pairing's order, lists or window: {line}"));
            }
            last_verdict = Some(verdict);
            used[of] = true;
        }
        let (missing, extra) = (self.verdicts.len() - most, self.signals.len() - most);
        let counts = format!("pairs={most} missing={missing} extra={extra}");
        same(&counts, lines.get(most))?;
        Ok(most + 1)
    }
}

/// A line `verdict= signal=`.
fn pair(line: &str) -> Option<[u64; 2]> {
    let (verdict, signal) = line.strip_prefix("verdict=")?.split_once(" signal=")?;
    let numbers = [verdict.parse().ok()?, signal.parse().ok()?];
    let [verdict, signal] = numbers;
    (format!("verdict={verdict} signal={signal}") == line).then_some(numbers)
}

fn same(wanted: &str, given: Option<&&str>) -> Result<(), String> {
    match given {
        Some(given) if *given == wanted => Ok(()),
        _ => Err(format!("wanted {wanted}, given {given:?}")),
    }
}

/// Checks all that another program printed over an input; gives how many calls and lines it answers.
pub fn check(input: &[u8], output: &str) -> Result<usize, String> {
    let lines: Vec<&str> = output.lines().collect();
    let whole: String = lines.iter().flat_map(|line| [*line, "\n"]).collect();
    if whole != output {
        return Err("the output does not end with a line".to_string());
    }
    let all = expected(input);
    let mut at = 0;
    for (number, one) in all.iter().enumerate() {
        let rest = &lines[at.min(lines.len())..];
        let printed = match one {
            Expected::Refused(n) => same(&format!("refused={n} input=0"), rest.first()).map(|()| 1),
            Expected::Paired(call) => call.check(rest),
        };
        at += printed
            .map_err(|what| format!("answer {}, output line {}: {what}", number + 1, at + 1))?;
    }
    if at < lines.len() {
        return Err(format!("output line {}: more than was asked", at + 1));
    }
    Ok(all.len())
}
