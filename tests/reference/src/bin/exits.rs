//! `exits INPUT OUTPUT` checks what the program `exits` printed over an input.

use std::process::ExitCode;
use std::{fs, io};

use reference::exits::check;

fn main() -> ExitCode {
    let arguments: Vec<String> = std::env::args().skip(1).collect();
    let [input, output] = arguments.as_slice() else {
        return fail("usage: exits INPUT OUTPUT");
    };
    match checked(input, output) {
        Ok(Ok(answers)) => {
            println!("agreed: {answers} answers");
            ExitCode::SUCCESS
        }
        Ok(Err(what)) => fail(&what),
        Err(error) => fail(&format!("exits: {error}")),
    }
}

fn checked(input: &str, output: &str) -> io::Result<Result<usize, String>> {
    Ok(check(&fs::read(input)?, &fs::read_to_string(output)?))
}

fn fail(message: &str) -> ExitCode {
    eprintln!("{message}");
    ExitCode::FAILURE
}
