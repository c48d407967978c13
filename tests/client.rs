// A client in Rust of the static library controller_c.
//
//     client one-box      weighs one box and prints the sheet of code 0, as crates/example does
//     client              prints the answers to the lines of standard input

use std::io::{stdin, stdout, Read, Result, Write};

#[link(name = "controller_c", kind = "static")]
extern "C" {
    // How many bytes of `out` are the answers to the lines of `input`; -1 where there is too little room.
    fn checkweigher_answers(
        input: *const u8,
        input_length: usize,
        out: *mut u8,
        out_length: usize,
    ) -> isize;
}

// What the controller is told, in turn; the last line asks for the sheet. The one before is refused: there is no code 100.
const ONE_BOX: &[u8] = b"\
mode=1 edge=1 tc=0 tw=0 ta=2 tf=0 ts1=1 to1=1 sort1=0 ts2=1 to2=1 sort2=0 ts3=1 to3=1 sort3=0 \
ts4=1 to4=1 sort4=0 ts5=1 to5=1 sort5=0 ts6=1 to6=1 sort6=0 stop=0 need=0
code=0 target=1000 lolo=900 lo=990 hi=1010 hihi=1100 nearzero=100 tare=0
COPR
sensor=1 emergency=0 safety=255 foreign=0 gross=500
sensor=1 emergency=0 safety=255 foreign=0 gross=1003
sensor=1 emergency=0 safety=255 foreign=0 gross=1004
CDTL0100
report=0
";

// Each line but the last is answered by one line.
const REPLIES: usize = 7;

// The answers to all lines of the input, in as much room as they take.
fn answers(input: &[u8]) -> Vec<u8> {
    let mut out = vec![0; 4096];
    loop {
        // SAFETY: both memories are this function's for the call, each with its length, and they do not overlap.
        let length = unsafe {
            checkweigher_answers(input.as_ptr(), input.len(), out.as_mut_ptr(), out.len())
        };
        if let Ok(length) = usize::try_from(length) {
            out.truncate(length);
            return out;
        }
        out.resize(2 * out.len(), 0);
    }
}

fn print_one_box() -> Result<()> {
    let answers = answers(ONE_BOX);
    let lines = answers.split_inclusive(|&byte| byte == b'\n');
    lines.skip(REPLIES).try_for_each(|line| stdout().write_all(line))
}

fn main() -> Result<()> {
    if std::env::args().nth(1).as_deref() == Some("one-box") {
        return print_one_box();
    }
    let mut input = Vec::new();
    stdin().read_to_end(&mut input)?;
    stdout().write_all(&answers(&input))
}
