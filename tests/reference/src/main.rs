//! The checkweigher program: text lines from standard input, answers to
//! standard output.

use std::io;

fn main() -> io::Result<()> {
    reference::stream::serve(io::stdin().lock(), io::stdout().lock())
}
