//! How places of document 01 with two readings are read: the sheet.

use crate::bench::{sample, store, Bench};

#[test]
fn deviation_is_the_rounded_mean_less_the_present_target() {
    let mut bench = Bench::running("");
    bench.weigh(1000, "outcome=3");
    bench.weigh(1005, "outcome=3");
    bench.check("report=0", "mean=1003 deviation=3");
    bench.check("CSTD", "status=0");
    bench.check(&store("target=1010"), "status=0");
    bench.check("report=0", "mean=1003 deviation=-7");
}

#[test]
fn an_empty_sheet() {
    let mut bench = Bench::fresh();
    let none = "max=none min=none sum=0 mean=none deviation=none sd=none sdp=none";
    bench.check("report=99", &format!("code=99 total=0 ng=0 ok=0 {none}"));
}

#[test]
fn a_sheet_with_verdicts_but_no_graded_one() {
    let mut bench = Bench::running("");
    bench.foreign_pulse();
    bench.weigh(1000, "outcome=6 tallied=1");
    let none = "max=none min=none sum=0 mean=none deviation=none sd=none sdp=none";
    bench.check("report=0", &format!("total=1 ng=1 foreign=1 {none}"));
}

#[test]
fn the_limit_is_on_all_eight_counts_together() {
    let mut bench = Bench::running("");
    let (on, off) = (sample("sensor=1"), sample("gross=999999"));
    let foreign = sample("gross=999999 foreign=1");
    for verdict in 0..999_998 {
        bench.say(&on);
        bench.say(if verdict % 9 == 0 { &foreign } else { &off });
    }
    bench.check("report=0", "total=999998 foreign=111111 hihi=888887");
    bench.weigh(1, "outcome=9 tallied=0");
    bench.weigh(899, "outcome=1 tallied=1");
    bench.check("CCAC", "status=1");
    bench.weigh(900, "outcome=2 tallied=1");
    bench.check("report=0", "total=999999 lolo=0 lo=1");
    bench.weigh(1000, "outcome=3 net=1000 tallied=0");
    bench.check("CCAC", "refused=7");
    bench.check("report=0", "total=999999 ok=0 sum=888886112013 max=999999 min=900 mean=999998");
    bench.check("CDTL0000", "status=1");
    bench.weigh(1000, "outcome=3 tallied=1");
}
