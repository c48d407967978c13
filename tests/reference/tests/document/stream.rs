//! Reading the stream: pieces of any size, lines of any length, prompt answers.

use std::cell::RefCell;
use std::io::{self, Read, Write};

use reference::generator;
use reference::stream::{serve, Program};

/// Gives its bytes in pieces of one size.
struct Pieces<'a> {
    bytes: &'a [u8],
    size: usize,
}

impl Read for Pieces<'_> {
    fn read(&mut self, buffer: &mut [u8]) -> io::Result<usize> {
        let size = self.size.min(buffer.len());
        self.bytes.read(&mut buffer[..size])
    }
}

#[test]
fn pieces_do_not_matter() {
    let mut input = Vec::new();
    let mut source = generator::source("damaged", 3, 3_000).expect("a kind");
    generator::write(source.as_mut(), 3_000, &mut input).expect("memory takes every byte");
    let answers = |size| {
        let mut output = Vec::new();
        serve(Pieces { bytes: &input, size }, &mut output).expect("memory takes every byte");
        output
    };
    let whole = answers(usize::MAX);
    for size in [1, 2, 7, 299, 300, 301, 302, 1000] {
        assert!(answers(size) == whole, "pieces of {size}");
    }
    let mut program = Program::fresh();
    let mut each = Vec::new();
    let lines = input.strip_suffix(b"\n").unwrap_or(&input).split(|&byte| byte == b'\n');
    lines.for_each(|line| program.answer(line, &mut each));
    assert!(each == whole, "line by line");
}

#[test]
fn a_line_of_many_megabytes_is_one_line() {
    let long = io::repeat(b'9').take(30_000_000);
    let input = b"report=".chain(long).chain(&b"\nreport=100\n"[..]);
    let mut output = Vec::new();
    serve(input, &mut output).expect("memory takes every byte");
    assert_eq!(output, b"refused=1 input=0\nrefused=2 input=0\n");
}

/// Both ends of a pipe: each read finds all earlier lines answered.
struct Pipe {
    sent: usize,
    answered: usize,
}

struct Asking<'a>(&'a RefCell<Pipe>);
struct Answering<'a>(&'a RefCell<Pipe>);

impl Read for Asking<'_> {
    fn read(&mut self, buffer: &mut [u8]) -> io::Result<usize> {
        let mut pipe = self.0.borrow_mut();
        assert_eq!(pipe.answered, pipe.sent, "all complete lines are answered before a read");
        if pipe.sent == 10 {
            return Ok(0);
        }
        pipe.sent += 1;
        (&b"CNOP\n"[..]).read(buffer)
    }
}

impl Write for Answering<'_> {
    fn write(&mut self, bytes: &[u8]) -> io::Result<usize> {
        self.0.borrow_mut().answered += bytes.iter().filter(|&&byte| byte == b'\n').count();
        Ok(bytes.len())
    }

    fn flush(&mut self) -> io::Result<()> {
        Ok(())
    }
}

#[test]
fn complete_lines_are_answered_before_more_are_read() {
    let pipe = RefCell::new(Pipe { sent: 0, answered: 0 });
    serve(Asking(&pipe), Answering(&pipe)).expect("no read or write fails");
    assert_eq!(pipe.borrow().answered, 10);
}
