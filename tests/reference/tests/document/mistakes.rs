//! The mistakes to shut out.

use crate::bench::Bench;

#[test]
fn a_detection_on_the_verdicts_own_tick_is_a_new_box() {
    let mut bench = Bench::running("ta=2");
    bench.tick("sensor=1", "detected=1 outcome=0");
    bench.tick("sensor=0 gross=1000", "detected=0 outcome=0");
    bench.tick("sensor=1 gross=1000", "detected=1 outcome=3 net=1000 busy=1");
    bench.tick("sensor=0 gross=800", "detected=0 outcome=0");
    bench.tick("sensor=0 gross=800", "detected=0 outcome=1 net=800 busy=0");
}

#[test]
fn a_cancel_puts_back_the_old_largest() {
    let mut bench = Bench::running("");
    bench.weigh(1000, "outcome=3");
    bench.weigh(1200, "outcome=5");
    bench.check("report=0", "total=2 max=1200 min=1000 sum=2200");
    bench.check("CCAC", "status=1 outcome=0 tallied=0");
    bench.check("report=0", "total=1 hihi=0 max=1000 min=1000 sum=1000 sdp=0.0");
}

#[test]
fn a_verdict_is_under_the_code_of_its_own_tick() {
    let mut bench = Bench::stopped("ta=2");
    bench
        .check("code=7 target=500 lolo=400 lo=490 hi=510 hihi=600 nearzero=9 tare=600", "status=0");
    bench.check("COPR", "status=1");
    bench.tick("sensor=1", "detected=1");
    bench.tick("gross=1100", "outcome=0");
    bench.check("CCOD0007", "status=1 busy=1");
    bench.tick("gross=1100", "outcome=3 net=500 tallied=1");
    bench.check("report=0", "total=0");
    bench.check("report=7", "total=1 ok=1 sum=500");
}

#[test]
fn a_pause_does_not_restart_averaging() {
    let mut bench = Bench::running("ta=3");
    bench.tick("sensor=1", "detected=1");
    bench.tick("gross=990", "outcome=0");
    bench.pause();
    bench.ticks(5, "gross=9999", "status=2 outcome=0");
    bench.check("COPR", "status=1 busy=1 error=none");
    bench.tick("gross=1000", "outcome=0");
    bench.tick("gross=1001", "outcome=3 net=997");
}
