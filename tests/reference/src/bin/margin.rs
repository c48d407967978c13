//! `margin` prints what the program `margin` must print over its standard input.

use std::io::{self, Read, Write};

use reference::margin::printed;

fn main() -> io::Result<()> {
    let mut input = Vec::new();
    io::stdin().read_to_end(&mut input)?;
    io::stdout().write_all(printed(&input).as_bytes())
}
