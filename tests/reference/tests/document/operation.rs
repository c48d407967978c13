//! Operation as document 01 states it without two readings.

use crate::bench::{sample, setup, store, Bench};

#[test]
fn a_fresh_line() {
    let mut bench = Bench::fresh();
    bench.check("CNOP", "status=0 busy=0 conveyor=0 sorter=0 detected=0 outcome=0 error=none");
    bench.check("COPR", "status=1 conveyor=1");
    // Edge 2, tw 72, ta 35, code 0 with all zeros.
    bench.tick("sensor=1", "detected=0");
    bench.tick("sensor=0", "detected=1");
    bench.ticks(72, "gross=9", "outcome=0");
    bench.ticks(34, "gross=5", "outcome=0");
    bench.tick("gross=5", "outcome=5 net=5 tallied=1 busy=0");
}

#[test]
fn refusals_come_in_the_tables_order() {
    let mut bench = Bench::stopped("need=2");
    bench.tick("safety=0 gross=5000", "status=0");
    bench.check("COPR", "refused=5 input=2");
    bench.tick("safety=2 gross=5000", "status=0");
    bench.check("COPR", "refused=6 input=0");
    bench.tick("safety=2 gross=100", "status=0");
    bench.check("COPR", "status=1");
    bench.check(&setup("mode=3 edge=1"), "refused=2");
    bench.check(&setup("mode=2 edge=1"), "refused=3");
    bench.check(&store("lolo=999999"), "refused=3");
    bench.check("CSTD", "status=0");
    bench.check(&setup("mode=2 edge=1"), "refused=4");
    bench.check(&setup("mode=2 edge=1 sort=1"), "refused=2");
    bench.check(&store("lolo=999999"), "refused=4");
    bench.check(&store("lolo=999999 tare=-1"), "refused=2");
}

#[test]
fn ranges_of_setup() {
    let line = [
        ("tc", 0, 9_999),
        ("tw", 0, 9_999),
        ("tf", 0, 9_999),
        ("ta", 1, 9_999),
        ("stop", 0, 255),
        ("need", 0, 255),
        ("mode", 1, 2),
        ("edge", 1, 2),
    ];
    let sorter = [("ts", 1, 9_999), ("to", 1, 9_999), ("sort", 0, 254)];
    let line = line.map(|(key, least, most)| (key.to_string(), least, most));
    let sorters =
        (1..=6).flat_map(|k| sorter.map(|(key, least, most)| (format!("{key}{k}"), least, most)));
    for (key, least, most) in line.into_iter().chain(sorters) {
        let mut bench = Bench::stopped("");
        bench.check(&setup(&format!("edge=2 {key}={least}")), "status=0");
        bench.check(&setup(&format!("edge=2 {key}={most}")), "status=0");
        bench.check(&setup(&format!("edge=2 {key}={}", least - 1)), "refused=2");
        bench.check(&setup(&format!("edge=2 {key}={}", most + 1)), "refused=2");
    }
    Bench::stopped("").check(&setup("sort=3"), "refused=2");
}

#[test]
fn ranges_of_store() {
    let mut bench = Bench::stopped("");
    let weights = "target=999999 lolo=-999999 lo=-999999 hi=999999 hihi=999999";
    bench.check(&store(weights), "status=0");
    bench.check(&store("code=99 nearzero=0 tare=999999"), "status=0");
    for wrong in ["code=100", "code=-1", "target=1000000", "lolo=-1000000", "hihi=1000000"] {
        bench.check(&store(wrong), "refused=2");
    }
    for wrong in ["nearzero=-1", "nearzero=1000000", "tare=-1", "tare=1000000"] {
        bench.check(&store(wrong), "refused=2");
    }
    for wrong in ["lolo=991", "lo=1001", "hi=999", "hihi=1009", "target=989"] {
        bench.check(&store(wrong), "refused=4");
    }
}

#[test]
fn the_sensor_settles_after_tc_ticks_in_a_row() {
    let mut bench = Bench::running("tc=3");
    bench.ticks(2, "sensor=1", "detected=0");
    bench.tick("sensor=0", "detected=0");
    bench.ticks(2, "sensor=1", "detected=0");
    bench.tick("sensor=1", "detected=1");
}

#[test]
fn each_stop_bit_pauses_with_its_error() {
    let mut bench = Bench::running("stop=128");
    bench.weigh(899, "outcome=1 status=2 error=0 conveyor=0");
    let mut bench = Bench::running("stop=4");
    bench.foreign_pulse();
    bench.weigh(1000, "outcome=6 status=2 error=5");
    let mut bench = Bench::running("ta=9 stop=2");
    bench.tick("sensor=1", "detected=1");
    bench.tick("sensor=0", "detected=0");
    bench.tick("sensor=1", "detected=1 outcome=7 status=2 error=2 busy=0");
    let mut bench = Bench::running("stop=1 sort=32 ts=99");
    for _ in 0..8 {
        bench.weigh(1000, "outcome=3 status=1");
    }
    bench.weigh(1000, "outcome=8 net=0 status=2 error=6 tallied=1");
    bench.check("report=0", "total=9 ok=8 crash=1 sum=8000");
}

#[test]
fn an_unsafe_sample_pauses_and_is_no_running_tick() {
    let mut bench = Bench::running("need=1");
    bench.tick("sensor=1", "detected=1");
    bench.tick("safety=254 gross=1000", "status=2 error=1 busy=1 outcome=0");
    bench.tick("gross=1000", "status=2 outcome=0");
    bench.check("COPR", "status=1 error=none");
    bench.tick("gross=1000", "outcome=3");
}

#[test]
fn an_item_in_hand_is_abandoned() {
    for (end, status) in [("CSTP", 3), (sample("emergency=1").as_str(), 3), ("CSTD", 0)] {
        let mut bench = Bench::running("ta=9");
        bench.tick("sensor=1", "detected=1 busy=1");
        if end == "CSTD" {
            bench.pause();
        }
        bench.check(end, &format!("status={status} outcome=10 busy=0 net=0 tallied=0 error=none"));
        bench.check("CCAC", "refused=7");
    }
}

#[test]
fn a_change_of_foreign_on_a_sample_that_ended_earlier_is_lost() {
    let mut bench = Bench::stopped("");
    bench.tick("foreign=1", "status=0");
    bench.check("COPR", "status=1");
    bench.tick("foreign=1 sensor=1", "detected=1");
    bench.tick("foreign=1 gross=1000", "outcome=3");
}

#[test]
fn stop_mode_holds_the_conveyor_with_an_item_in_hand() {
    let mut bench = Bench::running("mode=2 edge=2 tw=1");
    bench.tick("sensor=1", "conveyor=1");
    bench.tick("sensor=0", "detected=1 conveyor=0 busy=1");
    bench.tick("", "conveyor=0");
    bench.tick("gross=1000", "outcome=3 conveyor=1 busy=0");
}
