//! The kind `damaged`: a mixed stream with a good share of its lines damaged.

use std::ops::Range;

use super::mixed::Mixed;
use super::random::Random;
use super::Source;
use crate::read::LONGEST;

/// The setup line of document 01, which T-01 put another in the place of.
const ONE_SORTER: &[u8] = b"mode=1 edge=1 tc=0 tw=0 ta=2 tf=0 ts=1 to=1 sort=0 stop=0 need=0";

pub struct Damaged {
    mixed: Mixed,
    random: Random,
    lines: u64,
    /// The number of a line of many megabytes; 0 for none.
    giant: u64,
    open: bool,
}

impl Damaged {
    pub fn new(seed: u64, lines: u64) -> Damaged {
        let mut random = Random::new(!seed);
        let place = random.between(1, lines.max(1) as i64) as u64;
        let giant = if seed.is_multiple_of(8) { place } else { 0 };
        let open = random.chance(500);
        Damaged { mixed: Mixed::new(seed), random, lines: 0, giant, open }
    }
}

impl Source for Damaged {
    fn next_line(&mut self) -> Vec<u8> {
        self.lines += 1;
        let mut text = self.mixed.propose();
        while self.random.chance(300) {
            text = damage(text, &mut self.random);
        }
        if self.lines == self.giant {
            text.resize(5_000_000, b'7');
        }
        // A line ends at its LF, and the stream's lines are counted.
        text.iter_mut().filter(|byte| **byte == b'\n').for_each(|byte| *byte = b'\r');
        self.mixed.follow(&text);
        text
    }

    fn ends_open(&self) -> bool {
        self.open
    }
}

pub(super) fn damage(text: Vec<u8>, random: &mut Random) -> Vec<u8> {
    match random.between(0, 99) {
        0..=24 => damage_bytes(text, random),
        25..=36 => damage_spaces(text, random),
        37..=61 => damage_value(text, random),
        62..=76 => damage_fields(text, random),
        77..=86 => damage_length(text, random),
        87..=95 => damage_command(random),
        _ => damage_whole(text, random),
    }
}

fn damage_bytes(mut text: Vec<u8>, random: &mut Random) -> Vec<u8> {
    let place = random.below(text.len() + 1);
    let inside = place < text.len();
    match random.between(0, 7) {
        0 | 1 if inside => text[place] ^= 1 << random.between(0, 7),
        2 | 3 if inside => drop(text.remove(place)),
        4 => text.insert(place, 0),
        5 => text.insert(place, random.between(128, 255) as u8),
        6 => text.insert(place, random.pick(b"0123456789-+=. \tCsr")),
        _ => text.insert(place, random.between(0, 255) as u8),
    }
    text
}

fn damage_spaces(mut text: Vec<u8>, random: &mut Random) -> Vec<u8> {
    let spaces: Vec<usize> = (0..text.len()).filter(|&place| text[place] == b' ').collect();
    match random.between(0, 6) {
        0 => text.push(b' '),
        1 => text.insert(0, b' '),
        2 => text.push(b'\r'),
        3 => text.push(0),
        way if !spaces.is_empty() => {
            let space = random.pick(&spaces);
            match way {
                4 => text.insert(space, b' '),
                5 => text[space] = random.pick(b"\t,;\r\x0b"),
                _ => drop(text.remove(space)),
            }
        }
        _ => text.push(b' '),
    }
    text
}

/// Where the values of the key=value fields lie.
fn values(text: &[u8]) -> Vec<Range<usize>> {
    let starts = (1..=text.len()).filter(|&place| text[place - 1] == b'=');
    let end = |start: usize| text[start..].iter().position(|&byte| byte == b' ');
    starts.map(|start| start..end(start).map_or(text.len(), |length| start + length)).collect()
}

fn damage_value(mut text: Vec<u8>, random: &mut Random) -> Vec<u8> {
    let values = values(&text);
    if values.is_empty() {
        return damage_bytes(text, random);
    }
    let place = values[random.below(values.len())].clone();
    let old = String::from_utf8_lossy(&text[place.clone()]).into_owned();
    let new = match random.between(0, 13) {
        0 => format!("+{old}"),
        1 => format!("0{old}"),
        2 => format!("-{old}"),
        3 => "-0".into(),
        4 => "".into(),
        5 => "-".into(),
        6 => format!("-0{old}"),
        7 => "00".into(),
        8 => random.pick(&["1.0", "1e3", "0x1", "1_0", "none", "--1", "1-", " 1", "1 "]).into(),
        9 => random.pick(&["\u{0661}", "\u{ff11}", "\u{2212}1", "\u{b2}"]).into(),
        10 => random.pick(&["4294967296", "4294967297", "18446744073709551616"]).into(),
        11 => random.pick(&["9223372036854775808", "-9223372036854775809", "65536"]).into(),
        12 => format!("-{}", digits(random, 20, 300)),
        _ => digits(random, 20, 300),
    };
    text.splice(place, new.into_bytes());
    text
}

/// A number of so many digits, with no leading zero.
fn digits(random: &mut Random, fewest: i64, most: i64) -> String {
    let length = random.between(fewest, most);
    let mut digit = |place| char::from(b'0' + random.between(i64::from(place == 0), 9) as u8);
    (0..length).map(&mut digit).collect()
}

fn damage_fields(text: Vec<u8>, random: &mut Random) -> Vec<u8> {
    let mut fields: Vec<&[u8]> = text.split(|&byte| byte == b' ').collect();
    let (one, other) = (random.below(fields.len()), random.below(fields.len()));
    match random.between(0, 5) {
        0 | 1 => fields.swap(one, other),
        2 => drop(fields.remove(one)),
        3 => fields.insert(other, fields[one]),
        4 => fields.push(b"tare=0"),
        _ => fields.truncate(one),
    }
    fields.join(&b' ')
}

/// Lines around the longest, made so by one long number, and very long lines.
fn damage_length(mut text: Vec<u8>, random: &mut Random) -> Vec<u8> {
    if random.chance(60) {
        let length = random.between(1_000, 150_000) as usize;
        text.resize(length, random.pick(b"0 \x00xC"));
        return text;
    }
    if random.chance(400) {
        text = b"report=1".to_vec();
    }
    let length = LONGEST - 1 + random.below(4);
    let values = values(&text);
    if values.is_empty() || text.len() >= length {
        text.resize(length, b' ');
        return text;
    }
    let place = values[random.below(values.len())].clone();
    let long = (length - (text.len() - place.len())) as i64;
    text.splice(place, digits(random, long, long).into_bytes());
    text
}

fn damage_command(random: &mut Random) -> Vec<u8> {
    let commands = ["COPR", "CSTD", "CSTP", "CCAC", "CETL", "CRER", "CNOP", "CCOD", "CDTL"];
    let command = random.pick(&commands);
    let coded = random.pick(&["CCOD", "CDTL"]);
    let text = match random.between(0, 11) {
        0 => command.to_lowercase(),
        1 => format!("{command}0"),
        2 => format!("{command} "),
        3 => format!("{coded}{:03}", random.between(0, 5)),
        4 => format!("{coded}{:05}", random.between(0, 5)),
        5 => format!("{coded}0100"),
        6 => format!("{coded}{:04}", random.between(100, 9_999)),
        7 => format!("{coded} {:04}", random.between(0, 5)),
        8 => {
            coded.to_string() + random.pick(&["-001", "+001", "1", "00 1", "001 ", "000A", "00:1"])
        }
        9 => format!("{coded}="),
        10 => command[..3].into(),
        _ => command.into(),
    };
    text.into_bytes()
}

fn damage_whole(text: Vec<u8>, random: &mut Random) -> Vec<u8> {
    match random.between(0, 7) {
        0 => Vec::new(),
        1 => text.to_ascii_uppercase(),
        2 => text.to_ascii_lowercase(),
        3 => [text.as_slice(), text.as_slice()].concat(),
        4 => text[..random.below(text.len() + 1)].to_vec(),
        5 => text.into_iter().rev().collect(),
        6 => ONE_SORTER.into(),
        _ => (0..random.between(1, 400)).map(|_| random.between(0, 255) as u8).collect(),
    }
}
