//! Counts how often each outcome, refusal, error, status and the like occurs
//! in the program's output on standard input, to see what a stream covers.

use std::collections::BTreeMap;
use std::io;

/// For each field of replies and refusals, how often each value occurs.
type Census = BTreeMap<String, BTreeMap<Value, u64>>;

/// Numbers come in their order, words after them.
#[derive(PartialEq, Eq, PartialOrd, Ord)]
enum Value {
    Number(i64),
    Word(String),
}

/// Net has too many values to list.
const LEFT_OUT: [&str; 1] = ["net"];

fn main() -> io::Result<()> {
    let mut census = Census::new();
    for line in io::stdin().lines() {
        let line = line?;
        // A sheet has one field a line; its first tells that there was a report.
        if line.contains(' ') {
            line.split(' ').for_each(|field| count(&mut census, field));
        } else if line.starts_with("code=") {
            count(&mut census, "report=sheet");
        } else if line.starts_with("sd=") {
            let none = line == "sd=none";
            count(&mut census, if none { "sd=none" } else { "sd=value" });
        }
    }
    for (field, values) in &census {
        print(field, values);
    }
    Ok(())
}

fn count(census: &mut Census, field: &str) {
    let (key, value) = field.split_once('=').unwrap_or((field, ""));
    if LEFT_OUT.contains(&key) {
        return;
    }
    let value = value.parse().map_or_else(|_| Value::Word(value.into()), Value::Number);
    *census.entry(key.into()).or_default().entry(value).or_default() += 1;
}

fn print(field: &str, values: &BTreeMap<Value, u64>) {
    let text: Vec<String> = values
        .iter()
        .map(|(value, times)| match value {
            Value::Number(number) => format!("{number}: {times}"),
            Value::Word(word) => format!("{word}: {times}"),
        })
        .collect();
    println!("{field:10} {}", text.join("  "));
}
