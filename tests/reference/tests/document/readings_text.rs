//! How places of document 01 with two readings are read: text.

use crate::bench::{sample, setup, store, Bench};
use reference::stream::serve;

fn output(input: &[u8]) -> String {
    let mut output = Vec::new();
    serve(input, &mut output).expect("memory takes every byte");
    String::from_utf8(output).expect("answers are ASCII")
}

#[test]
fn a_line_has_300_bytes_at_most_and_its_lf_is_no_part_of_it() {
    let digits = |count: usize| format!("report={}", "7".repeat(count));
    assert_eq!(digits(293).len(), 300);
    for end in ["", "\n"] {
        assert_eq!(output((digits(293) + end).as_bytes()), "refused=2 input=0\n");
        assert_eq!(output((digits(294) + end).as_bytes()), "refused=1 input=0\n");
    }
    let mut bench = Bench::fresh();
    let long = "9".repeat(300 - sample("gross=").len());
    bench.check(&sample(&format!("gross={long}")), "refused=2");
    bench.check(&sample(&format!("gross={long}9")), "refused=1");
}

#[test]
fn form_is_judged_over_the_whole_line_before_any_value() {
    let mut bench = Bench::fresh();
    bench.check(&sample("sensor=7 gross=+1"), "refused=1");
    bench.check(&sample("sensor=7 gross=1"), "refused=2");
    bench.check(&format!("{} ", sample("sensor=7")), "refused=1");
}

#[test]
fn a_minus_is_well_formed_and_odd_numbers_are_not() {
    let mut bench = Bench::fresh();
    for value in ["-1", "-999999999999999999999999999", "2", "256", "99999999999999999999"] {
        bench.check(&sample(&format!("sensor={value}")), "refused=2 input=0");
    }
    bench.check("report=-1", "refused=2");
    for value in ["-0", "-", "", "+1", "007", "00", "-01", "--1", "1-", "0x1", "1.0", "1e2"] {
        bench.check(&sample(&format!("gross={value}")), "refused=1 input=0");
        bench.check(&format!("report={value}"), "refused=1 input=0");
    }
    bench.check(&sample("gross=-999999"), "status=0");
    bench.check(&sample("gross=-1000000"), "refused=2");
    bench.check(&sample("gross=1000000"), "refused=2");
}

#[test]
fn recall_and_clear_code_take_exactly_four_digits() {
    let mut bench = Bench::fresh();
    for command in ["CCOD", "CDTL"] {
        for code in ["", "0", "005", "00005", "-001", "+001", " 0001", "0001 ", "000A", "00:0"] {
            bench.check(&format!("{command}{code}"), "refused=1");
        }
        for code in ["0100", "0101", "1000", "9999"] {
            bench.check(&format!("{command}{code}"), "refused=2");
        }
        for code in ["0000", "0007", "0099"] {
            bench.check(&format!("{command}{code}"), "status=0");
        }
    }
    for text in ["copr", "COPR ", " COPR", "COPR0", "COP", "C", "CNOP\0"] {
        bench.check(text, "refused=1");
    }
}

#[test]
fn fields_stand_in_the_examples_order_and_no_byte_is_special() {
    let mut bench = Bench::fresh();
    bench.check("sensor=1 emergency=0 foreign=0 safety=255 gross=5", "refused=1");
    bench.check("sensor=1 emergency=0 safety=255 foreign=0", "refused=1");
    bench.check("sensor=1 emergency=0 safety=255 foreign=0 gross=5 gross=5", "refused=1");
    for byte in ["\r", "\0", "\t", "\u{80}", "\u{661}", "\u{feff}", " "] {
        bench.check(&format!("{}{byte}", sample("")), "refused=1");
        bench.check(&format!("{byte}{}", sample("")), "refused=1");
        bench.check(&sample("").replacen(' ', &format!(" {byte}"), 1), "refused=1");
    }
    let mut out = Vec::new();
    bench.program.answer(b"CNOP\xff", &mut out);
    assert_eq!(out, b"refused=1 input=0\n");
}

#[test]
fn an_empty_line_is_a_line_and_nothing_behind_the_last_lf_is_none() {
    assert_eq!(output(b""), "");
    assert_eq!(output(b"\n"), "refused=1 input=0\n");
    assert_eq!(output(b"\n\n"), "refused=1 input=0\n".repeat(2));
    assert_eq!(output(b"report=100"), "refused=2 input=0\n");
    assert_eq!(output(b"report=100\n"), "refused=2 input=0\n");
    assert_eq!(output(b"report=100\nCCAC"), "refused=2 input=0\nrefused=7 input=0\n");
}

#[test]
fn a_number_too_large_for_any_field_is_carried_as_an_event() {
    let huge = "123456789012345678901234567890";
    let mut bench = Bench::running("");
    bench.check(&setup(&format!("tc={huge}")), "refused=2");
    bench.check(&setup(""), "refused=3");
    bench.check(&store(&format!("code={huge} lolo=999999")), "refused=2");
    bench.check(&store("lolo=999999"), "refused=3");
    bench.check(&format!("report={huge}"), "refused=2");
}
