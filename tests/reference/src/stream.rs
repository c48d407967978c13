//! The program over text lines: lines in, answers out.

use std::io::{self, ErrorKind, Read, Write};

use crate::event::is_code;
use crate::line::Line;
use crate::memory::Memory;
use crate::print;
use crate::read::{self, Request};
use crate::refusal::Refusal;
use crate::sheet::Sheet;

/// The line and its memory, answering one text line after the other.
pub struct Program {
    pub line: Line,
    pub memory: Memory,
}

impl Program {
    pub fn fresh() -> Program {
        Program { line: Line::fresh(), memory: Memory::fresh() }
    }

    /// Answers one text line, given without its LF.
    pub fn answer(&mut self, text: &[u8], out: &mut Vec<u8>) {
        match &read::request(text) {
            Some(Request::Event(event)) => match &self.line.apply(&mut self.memory, event) {
                Ok(reply) => print::reply(out, reply),
                Err(refusal) => print::refusal(out, refusal),
            },
            Some(Request::Report { code }) => match &self.report(*code) {
                Ok(sheet) => print::sheet(out, sheet),
                Err(refusal) => print::refusal(out, refusal),
            },
            None => print::refusal(out, &Refusal::FORM),
        }
    }

    fn report(&self, code: i64) -> Result<Sheet, Refusal> {
        if !is_code(code) {
            return Err(Refusal::VALUE);
        }
        let place = code as usize;
        Ok(Sheet::of(code, &self.memory.tallies[place], self.memory.settings[place].target))
    }
}

/// Answers every line of the input. All complete lines that a read brought
/// are answered before the next read, which may wait.
pub fn serve(mut input: impl Read, mut output: impl Write) -> io::Result<()> {
    let mut program = Program::fresh();
    let mut buffer = vec![0; 1 << 16];
    let mut begun = Vec::new();
    let mut out = Vec::new();
    loop {
        let bytes = match input.read(&mut buffer) {
            Ok(count) => &buffer[..count],
            Err(error) if error.kind() == ErrorKind::Interrupted => continue,
            Err(error) => return Err(error),
        };
        if bytes.is_empty() {
            break;
        }
        answer_lines(&mut program, bytes, &mut begun, &mut out);
        output.write_all(&out)?;
        output.flush()?;
        out.clear();
    }
    if !begun.is_empty() {
        program.answer(&begun, &mut out); // the last line came without its LF
    }
    output.write_all(&out)?;
    output.flush()
}

/// Answers the lines that end in these bytes; `begun` is the start of a line
/// whose LF has not come yet.
fn answer_lines(program: &mut Program, bytes: &[u8], begun: &mut Vec<u8>, out: &mut Vec<u8>) {
    let mut rest = bytes;
    while let Some(end) = line_end(rest) {
        let text = &rest[..end];
        if begun.is_empty() {
            program.answer(text, out);
        } else {
            hold(begun, text);
            program.answer(begun, out);
            begun.clear();
        }
        rest = &rest[end + 1..];
    }
    hold(begun, rest);
}

/// Where the first LF is. Whole blocks without one are passed over at once,
/// in a form that compilers turn into vector instructions.
fn line_end(bytes: &[u8]) -> Option<usize> {
    let is_end = |&byte: &u8| byte == b'\n';
    let has_end = |block: &[u8]| block.iter().fold(false, |found, byte| found | is_end(byte));
    let passed = bytes.chunks_exact(16).take_while(|block| !has_end(block)).count() * 16;
    bytes[passed..].iter().position(is_end).map(|end| passed + end)
}

/// Holds one byte more than the longest line at most: that is enough to be
/// refused, however long the line is.
fn hold(begun: &mut Vec<u8>, text: &[u8]) {
    let space = read::LONGEST + 1 - begun.len();
    begun.extend_from_slice(&text[..text.len().min(space)]);
}
