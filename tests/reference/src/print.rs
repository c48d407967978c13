//! Printing replies, refusals and sheets.

use crate::line::Reply;
use crate::refusal::Refusal;
use crate::sheet::Sheet;

pub fn reply(out: &mut Vec<u8>, reply: &Reply) {
    let mut text = *b"status=0 busy=0 conveyor=0 sorter=";
    text[7] += reply.status as u8;
    text[14] += reply.busy as u8;
    text[25] += reply.conveyor as u8;
    out.extend_from_slice(&text);
    number(out, i64::from(reply.sorter));
    let mut text = *b" detected=0 outcome=";
    text[10] += reply.done.detected as u8;
    out.extend_from_slice(&text);
    number(out, reply.done.outcome);
    out.extend_from_slice(b" net=");
    number(out, reply.done.net);
    let mut text = *b" tallied=0 error=";
    text[9] += reply.done.tallied as u8;
    out.extend_from_slice(&text);
    number_or_none(out, reply.error.map(i64::from));
    out.push(b'\n');
}

pub fn refusal(out: &mut Vec<u8>, refusal: &Refusal) {
    out.extend_from_slice(b"refused=");
    number(out, i64::from(refusal.number));
    let mut text = *b" input=0\n";
    text[7] += refusal.input;
    out.extend_from_slice(&text);
}

/// The sheet, one field a line.
pub fn sheet(out: &mut Vec<u8>, sheet: &Sheet) {
    let names = ["lolo", "lo", "ok", "hi", "hihi", "foreign", "double", "crash"];
    field(out, "code", Some(sheet.code));
    field(out, "total", Some(sheet.total));
    field(out, "ng", Some(sheet.ng));
    for (name, count) in names.iter().zip(sheet.counts) {
        field(out, name, Some(count));
    }
    field(out, "max", sheet.max);
    field(out, "min", sheet.min);
    field(out, "sum", Some(sheet.sum));
    field(out, "mean", sheet.mean);
    field(out, "deviation", sheet.deviation);
    tenths(out, "sd", sheet.sd);
    tenths(out, "sdp", sheet.sdp);
    for (class, count) in sheet.classes.iter().enumerate() {
        field(out, &format!("class{class}"), Some(*count));
    }
}

fn field(out: &mut Vec<u8>, name: &str, value: Option<i64>) {
    out.extend_from_slice(name.as_bytes());
    out.push(b'=');
    number_or_none(out, value);
    out.push(b'\n');
}

/// A field whose value is in tenths, with one decimal.
fn tenths(out: &mut Vec<u8>, name: &str, value: Option<i64>) {
    let Some(value) = value else {
        return field(out, name, None);
    };
    out.extend_from_slice(name.as_bytes());
    out.push(b'=');
    number(out, value / 10);
    out.push(b'.');
    number(out, value % 10);
    out.push(b'\n');
}

fn number_or_none(out: &mut Vec<u8>, value: Option<i64>) {
    match value {
        Some(value) => number(out, value),
        None => out.extend_from_slice(b"none"),
    }
}

fn number(out: &mut Vec<u8>, value: i64) {
    if (0..10).contains(&value) {
        out.push(b'0' + value as u8);
        return;
    }
    let mut text = [0; 20]; // the longest i64 has a sign and 19 digits
    let mut start = text.len();
    let mut rest = value.unsigned_abs();
    while rest > 0 {
        start -= 1;
        text[start] = b'0' + (rest % 10) as u8;
        rest /= 10;
    }
    if value < 0 {
        start -= 1;
        text[start] = b'-';
    }
    out.extend_from_slice(&text[start..]);
}
