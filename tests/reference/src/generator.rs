//! Streams of input lines, deterministic from a seed.

pub mod belt;
pub mod damage;
pub mod exits;
pub mod limit;
pub mod margin;
pub mod mixed;
pub mod plate;
pub mod random;
pub mod reports;
pub mod samples;

use std::io::{self, Write};

use damage::Damaged;
use exits::Exits;
use limit::Limit;
use margin::Margin;
use mixed::Mixed;
use reports::Reports;
use samples::Samples;

/// A source of input lines, each without its LF.
pub trait Source {
    fn next_line(&mut self) -> Vec<u8>;

    /// Whether the stream's last line goes without its LF.
    fn ends_open(&self) -> bool {
        false
    }
}

/// The source of this kind, if there is one of the name.
pub fn source(kind: &str, seed: u64, lines: u64) -> Option<Box<dyn Source>> {
    match kind {
        "samples" => Some(Box::new(Samples::new(seed))),
        "mixed" => Some(Box::new(Mixed::new(seed))),
        "damaged" => Some(Box::new(Damaged::new(seed, lines))),
        "reports" => Some(Box::new(Reports::new(seed))),
        "limit" => Some(Box::new(Limit::new(seed))),
        "exits" => Some(Box::new(Exits::new(seed))),
        "margin" => Some(Box::new(Margin::new(seed))),
        _ => None,
    }
}

pub fn write(source: &mut dyn Source, lines: u64, output: &mut impl Write) -> io::Result<()> {
    for number in 1..=lines {
        let text = source.next_line();
        output.write_all(&text)?;
        // Nothing behind the last LF would be no line, so an empty one keeps its LF.
        if number < lines || text.is_empty() || !source.ends_open() {
            output.write_all(b"\n")?;
        }
    }
    output.flush()
}
