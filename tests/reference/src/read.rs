//! Reading one text line: an event, a report, or neither.

use crate::event::{Event, Sample, Settings, Setup, SorterSetup, SORTERS};

/// The longest line in bytes, its LF not counted.
pub const LONGEST: usize = 300;

#[derive(Clone, Copy, Debug, PartialEq, Eq)]
pub enum Request {
    Event(Event),
    Report { code: i64 },
}

/// None is text that is no line of documents 01 and 02: refused 1.
pub fn request(line: &[u8]) -> Option<Request> {
    if line.len() > LONGEST {
        return None;
    }
    match *line.first()? {
        b's' => sample(line).map(Request::Event),
        b'C' => command(line).map(Request::Event),
        b'm' => setup(line).map(Request::Event),
        b'c' => store(line).map(Request::Event),
        b'r' => fields(line, ["report="]).map(|[code]| Request::Report { code }),
        _ => None,
    }
}

fn sample(line: &[u8]) -> Option<Event> {
    let keys = ["sensor=", " emergency=", " safety=", " foreign=", " gross="];
    let [sensor, emergency, safety, foreign, gross] = fields(line, keys)?;
    Some(Event::Sample(Sample { sensor, emergency, safety, foreign, gross }))
}

fn setup(line: &[u8]) -> Option<Event> {
    #[rustfmt::skip]
    let keys = [
        "mode=", " edge=", " tc=", " tw=", " ta=", " tf=",
        " ts1=", " to1=", " sort1=", " ts2=", " to2=", " sort2=", " ts3=", " to3=", " sort3=",
        " ts4=", " to4=", " sort4=", " ts5=", " to5=", " sort5=", " ts6=", " to6=", " sort6=",
        " stop=", " need=",
    ];
    let [mode, edge, tc, tw, ta, tf, sorting @ .., stop, need] = fields(line, keys)?;
    let sorter =
        |k| SorterSetup { ts: sorting[3 * k], to: sorting[3 * k + 1], sort: sorting[3 * k + 2] };
    let sorters: [SorterSetup; SORTERS] = std::array::from_fn(sorter);
    Some(Event::Setup(Setup { mode, edge, tc, tw, ta, tf, sorters, stop, need }))
}

fn store(line: &[u8]) -> Option<Event> {
    let keys = ["code=", " target=", " lolo=", " lo=", " hi=", " hihi=", " nearzero=", " tare="];
    let [code, target, lolo, lo, hi, hihi, nearzero, tare] = fields(line, keys)?;
    let settings = Settings { target, lolo, lo, hi, hihi, nearzero, tare };
    Some(Event::Store { code, settings })
}

fn command(line: &[u8]) -> Option<Event> {
    match line {
        b"COPR" => Some(Event::Run),
        b"CSTD" => Some(Event::Stop),
        b"CSTP" => Some(Event::Emergency),
        b"CCAC" => Some(Event::Cancel),
        b"CETL" => Some(Event::ClearAll),
        b"CRER" => Some(Event::ErrorReset),
        b"CNOP" => Some(Event::NoOperation),
        [b'C', b'C', b'O', b'D', digits @ ..] => Some(Event::Recall { code: four_digits(digits)? }),
        [b'C', b'D', b'T', b'L', digits @ ..] => {
            Some(Event::ClearCode { code: four_digits(digits)? })
        }
        _ => None,
    }
}

fn four_digits(digits: &[u8]) -> Option<i64> {
    let fit = digits.len() == 4 && digits.iter().all(u8::is_ascii_digit);
    fit.then(|| digits.iter().fold(0, |value, digit| value * 10 + i64::from(digit - b'0')))
}

/// The numbers behind the keys, in this order, with nothing else in the line.
/// Each key but the first begins with the one space between fields.
#[inline(always)] // so that each kind of line compares with its own known keys
pub(crate) fn fields<const N: usize>(line: &[u8], keys: [&str; N]) -> Option<[i64; N]> {
    let mut rest = line;
    let mut values = [0; N];
    for (value, key) in values.iter_mut().zip(keys) {
        (*value, rest) = number(rest.strip_prefix(key.as_bytes())?)?;
    }
    rest.is_empty().then_some(values)
}

/// A number at the start of the text, and the text behind it: an optional
/// minus and digits, with no leading zero and no -0.
#[inline]
fn number(text: &[u8]) -> Option<(i64, &[u8])> {
    let negative = text.first() == Some(&b'-');
    let digits = &text[usize::from(negative)..];
    let (value, length) = magnitude(digits);
    let zero_first = digits.first() == Some(&b'0');
    if length == 0 || zero_first && (length > 1 || negative) {
        return None;
    }
    Some((if negative { -value } else { value }, &digits[length..]))
}

/// The value of the digits at the start of the text, and how many they are.
/// Once the value is beyond every range it stays so, however many follow.
fn magnitude(text: &[u8]) -> (i64, usize) {
    const BEYOND: i64 = 1_000_000_000;
    let (mut value, mut length) = (0, 0);
    while length < text.len() && text[length].is_ascii_digit() {
        if value < BEYOND {
            value = value * 10 + i64::from(text[length] - b'0');
        }
        length += 1;
    }
    (value, length)
}
