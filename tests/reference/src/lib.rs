//! Reference of the belt checkweigher line: document 01, with what landed of 02, in plain Rust.
//!
//! It is written from the papers alone, to be compared byte for byte with
//! another program and to be the baseline of its speed. Its line and memory
//! are its own and always fit, so refusal 8 (memory) cannot occur in it.

pub mod bench;
pub mod event;
pub mod exits;
pub mod foreign;
pub mod generator;
pub mod line;
pub mod margin;
pub mod memory;
pub mod print;
pub mod read;
pub mod refusal;
pub mod sample;
pub mod sheet;
pub mod sorter;
pub mod stream;
pub mod tally;
pub mod verdict;
