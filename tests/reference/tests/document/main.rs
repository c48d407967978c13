//! Documents 01 and 02 as tests: the worked example, the bench marks, the readings of
//! its places with two senses, the mistakes to shut out, demand 3's book, what the
//! generated streams meet of 02, and the gate's stream.

mod bench;
mod bench_marks;
mod bench_mode;
mod book;
mod coverage;
mod coverage_bench;
mod example;
mod exits;
mod gate;
mod margin;
mod mistakes;
mod operation;
mod readings_line;
mod readings_sheet;
mod readings_text;
mod requests;
mod stream;
mod waiting;
