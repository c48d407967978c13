//! `generate SEED LINES KIND` prints a stream of LINES input lines.

use std::io::{self, BufWriter};
use std::process::ExitCode;

use reference::generator;

const USAGE: &str = "usage: generate SEED LINES samples|mixed|damaged|reports|limit|exits|margin";

fn main() -> ExitCode {
    let arguments: Vec<String> = std::env::args().skip(1).collect();
    let [seed, lines, kind] = arguments.as_slice() else {
        return fail(USAGE);
    };
    let (Ok(seed), Ok(lines)) = (seed.parse(), lines.parse()) else {
        return fail(USAGE);
    };
    let Some(mut source) = generator::source(kind, seed, lines) else {
        return fail(USAGE);
    };
    let mut output = BufWriter::with_capacity(1 << 16, io::stdout().lock());
    match generator::write(source.as_mut(), lines, &mut output) {
        Ok(()) => ExitCode::SUCCESS,
        Err(error) => fail(&format!("generate: {error}")),
    }
}

fn fail(message: &str) -> ExitCode {
    eprintln!("{message}");
    ExitCode::FAILURE
}
