//! The stream that the gate runs, and the page that tells of a part of it.

use std::fs;
use std::ops::Range;

use reference::stream;

/// A file of the repository.
fn file(path: &str) -> Vec<u8> {
    let root = concat!(env!("CARGO_MANIFEST_DIR"), "/../../");
    fs::read(format!("{root}{path}")).unwrap_or_else(|error| panic!("{path}: {error}"))
}

fn answers(input: &[u8]) -> Vec<u8> {
    let mut output = Vec::new();
    stream::serve(input, &mut output).expect("nothing fails in memory");
    output
}

#[test]
fn the_gates_answers_are_the_references() {
    let (wanted, given) =
        (answers(&file("crates/checkweigher/stdin")), file("crates/checkweigher/stdout"));
    assert!(wanted == given, "crates/checkweigher/stdout is not what the reference answers");
}

/// The lines of the gate's input that the page names, counted from 0.
fn told(page: &str) -> Range<usize> {
    let (_, rest) = page.split_once("it is lines ").expect("the page names its lines");
    let numbers: Vec<usize> =
        rest.split(' ').step_by(2).take(2).map(|number| number.parse().expect("a line")).collect();
    numbers[0] - 1..numbers[1]
}

/// docs/BENCH.md: its lines in and its whole answers stand in the feed that it names, and a fresh
/// program answers that feed as the gate's does.
#[test]
fn the_bench_page_tells_what_is_answered() {
    let page = String::from_utf8(file("docs/BENCH.md")).expect("UTF-8");
    let input = file("crates/checkweigher/stdin");
    let lines: Vec<&[u8]> = input.split_inclusive(|&byte| byte == b'\n').collect();
    let before = answers(&lines[..told(&page).start].concat());
    let feed = lines[told(&page)].concat();
    let fresh = answers(&feed);
    assert!(file("crates/checkweigher/stdout")[before.len()..].starts_with(&fresh));
    let [feed, fresh] = [feed, fresh].map(|text| String::from_utf8(text).expect("ASCII"));
    let block = page.split("```").nth(1).expect("a block of lines").trim();
    assert!(feed.contains(block), "the setup is not the feed's");
    let codes = page.split('`').filter(|code| code.starts_with("status=") && !code.ends_with(".."));
    assert!(codes.clone().count() >= 4);
    for code in codes {
        assert!(fresh.lines().any(|answer| answer == code), "{code}");
    }
    let cut = page
        .split('`')
        .filter_map(|code| code.strip_prefix(".. "))
        .map(|code| code.trim_end_matches(" .."));
    for code in cut {
        assert!(fresh.lines().any(|answer| answer.contains(code)), "{code}");
    }
}
