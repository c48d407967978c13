//! T-02 of document 02, bench mode: boxes lifted on by hand.

use crate::bench::{sample, setup, store, Bench};

/// A line in mode 4, run from stopped, with this setup and nearzero 100.
fn bench_mode(changes: &str) -> Bench {
    Bench::running(&format!("mode=4 {changes}"))
}

/// A running line of a setup in which a box was weighed and lies on the plate: it is disarmed.
fn weighed(changes: &str) -> Bench {
    let mut bench = bench_mode(changes);
    lift_on(&mut bench);
    while bench.say(&sample("gross=1000")).contains("outcome=0") {}
    bench
}

/// Ten ticks of one gross, of which the tenth detects.
#[track_caller]
fn lift_on(bench: &mut Bench) {
    bench.ticks(9, "gross=1000", "detected=0");
    bench.tick("gross=1000", "detected=1 outcome=0 busy=1");
}

/// So many ticks of one gross that a line that is armed would detect a box.
#[track_caller]
fn lies_unseen(bench: &mut Bench) {
    bench.ticks(30, "gross=1000", "status=1 detected=0 outcome=0 busy=0");
}

/// These grosses on running ticks; the number of the tick that detects, from 1.
fn detects_on(grosses: impl IntoIterator<Item = i64>) -> Option<usize> {
    let mut bench = bench_mode("");
    let detects = |gross| bench.say(&sample(&format!("gross={gross}"))).contains("detected=1");
    grosses.into_iter().position(detects).map(|place| place + 1)
}

/// "Fewer than 10 such ticks detect nothing." The tenth, this tick included, does.
#[test]
fn the_tenth_tick_detects() {
    let mut bench = bench_mode("");
    bench.ticks(9, "gross=1000", "status=1 detected=0 outcome=0 busy=0");
    bench.tick("gross=1000", "detected=1 outcome=0 busy=1 tallied=0");
    bench.tick("gross=1000", "detected=0 outcome=3 net=1000 tallied=1 busy=0 error=none");
}

/// The largest less the smallest of the ten: 2 detects, 3 does not, wherever the one stands that differs.
#[test]
fn ten_grosses_differ_by_at_most_2() {
    for place in 0..10 {
        for (apart, tick) in [(2, 10), (-2, 10), (3, place + 11), (-3, place + 11)] {
            let mut grosses = [1000; 21];
            grosses[place] += apart;
            assert_eq!(detects_on(grosses), Some(tick), "{apart} on tick {}", place + 1);
        }
    }
    assert_eq!(detects_on((0..30).map(|tick| 1000 + tick % 3)), Some(10));
    assert_eq!(detects_on((0..30).map(|tick| 1000 + tick % 4)), None);
}

/// A slow drift: neighbours that differ by 1 are not enough.
#[test]
fn a_drift_is_no_steady_box() {
    assert_eq!(detects_on((0..90).map(|tick| 1000 + tick)), None);
    assert_eq!(detects_on((0..90).map(|tick| 1000 - tick / 3)), None);
    assert_eq!(detects_on((0..90).map(|tick| 1000 + tick / 4)), Some(10));
}

/// Ticks on an empty plate count among the ten: just above nearzero a box is detected at once.
#[test]
fn a_gross_at_nearzero_is_an_empty_plate() {
    assert_eq!(detects_on([100; 40]), None);
    assert_eq!(detects_on([100; 9].into_iter().chain([101])), Some(10));
    assert_eq!(detects_on([99; 30].into_iter().chain([101])), Some(31));
    assert_eq!(detects_on([98; 30].into_iter().chain([101; 10])), Some(40));
}

/// "Detection disarms": a box that stays is weighed once, until the plate was near zero.
#[test]
fn a_box_that_stays_is_weighed_once() {
    let mut bench = weighed("");
    lies_unseen(&mut bench);
    bench.tick("gross=101", "detected=0");
    lies_unseen(&mut bench);
    bench.tick("gross=100", "detected=0");
    lift_on(&mut bench);
    bench.tick("gross=1000", "outcome=3");
    bench.check("report=0", "total=2");
}

/// A run from stopped arms, one from paused does not; ticks that do not run arm neither.
#[test]
fn only_a_run_from_stopped_arms() {
    let mut bench = weighed("need=1");
    bench.tick("safety=254 gross=0", "status=2 error=1");
    bench.ticks(3, "gross=0", "status=2");
    bench.ticks(20, "gross=1000", "status=2 detected=0");
    bench.check("COPR", "status=1");
    lies_unseen(&mut bench);
    bench.tick("gross=0", "detected=0");
    lift_on(&mut bench);
    for end in ["CSTD", "CSTP", sample("emergency=1").as_str()] {
        let mut bench = weighed("");
        bench.check(end, "busy=0");
        bench.tick("gross=1000", "status=0");
        bench.check("COPR", "refused=6");
        bench.tick("gross=100", "status=0");
        bench.check("COPR", "status=1");
        lift_on(&mut bench);
    }
}

/// The ten are those since the last accepted run, from stopped or paused; a pause keeps the arming.
#[test]
fn each_run_begins_the_ten_anew() {
    let mut bench = bench_mode("need=1");
    bench.ticks(9, "gross=1000", "detected=0");
    bench.tick("safety=254 gross=1000", "status=2 error=1");
    bench.ticks(12, "gross=1000", "status=2 detected=0");
    bench.check("COPR", "status=1");
    lift_on(&mut bench);
    let mut bench = bench_mode("");
    bench.ticks(9, "gross=1000", "detected=0");
    bench.check("CSTD", "status=0");
    bench.tick("gross=0", "status=0");
    bench.check("COPR", "status=1");
    lift_on(&mut bench);
    // A refused one does not begin them anew, nor does any other event.
    let mut bench = bench_mode("");
    bench.ticks(9, "gross=1000", "detected=0");
    for (text, wanted) in [("COPR", "refused=3"), ("CCOD0000", "status=1"), ("CRER", "status=1")] {
        bench.check(text, wanted);
    }
    bench.tick("gross=1000", "detected=1");
}

/// Ticks with a box in hand and before the last detection count among the ten.
#[test]
fn ticks_with_a_box_in_hand_count() {
    let mut bench = bench_mode("tw=3");
    lift_on(&mut bench);
    bench.tick("gross=0", "outcome=0");
    bench.ticks(2, "gross=1000", "outcome=0");
    bench.tick("gross=1000", "outcome=3 detected=0");
    bench.ticks(6, "gross=1000", "detected=0");
    bench.tick("gross=1000", "detected=1");
    // Weighed just above nearzero, then at it and above it again: no ten ticks since the detection.
    let mut bench = bench_mode("");
    bench.ticks(9, "gross=101", "detected=0");
    bench.tick("gross=101", "detected=1");
    bench.tick("gross=101", "outcome=1 net=101 detected=0");
    bench.tick("gross=100", "detected=0");
    bench.tick("gross=101", "detected=1");
}

/// A running tick arms with a box in hand too; here nine ticks are alike on the verdict's tick.
#[test]
fn arming_with_a_box_in_hand() {
    for (gross, armed) in [(100, true), (101, false)] {
        let mut bench = bench_mode("tw=9");
        lift_on(&mut bench);
        bench.tick(&format!("gross={gross}"), "outcome=0");
        bench.ticks(8, "gross=1000", "outcome=0");
        bench.tick("gross=1000", "outcome=3 detected=0");
        bench.tick("gross=1000", &format!("detected={}", i64::from(armed)));
    }
}

/// "An armed line still running and with nothing in hand": the verdict's own tick can detect the next box.
#[test]
fn detection_on_the_verdicts_own_tick() {
    let mut bench = bench_mode("tw=12");
    lift_on(&mut bench);
    bench.tick("gross=0", "outcome=0");
    bench.ticks(11, "gross=1000", "outcome=0 detected=0");
    bench.tick("gross=1000", "outcome=3 net=1000 tallied=1 detected=1 busy=1");
    bench.ticks(12, "gross=1000", "outcome=0 detected=0 busy=1");
    bench.tick("gross=1000", "outcome=3 detected=0 busy=0");
    // Where its stop bit pauses the line it does not, and the arming is kept.
    let mut bench = bench_mode("tw=12 stop=32");
    lift_on(&mut bench);
    bench.tick("gross=0", "outcome=0");
    bench.ticks(11, "gross=1000", "outcome=0 detected=0");
    bench.tick("gross=1000", "outcome=3 status=2 error=0 detected=0");
    bench.check("COPR", "status=1");
    lift_on(&mut bench);
}

/// The tick of a verdict whose stop bit pauses the line is a running tick: it arms.
#[test]
fn arming_on_a_tick_that_a_stop_bit_ended() {
    for (last, armed) in [(100, true), (101, false)] {
        let mut bench = bench_mode("ta=2 stop=32");
        lift_on(&mut bench);
        bench.tick(&format!("gross={}", 2000 - last), "outcome=0");
        bench.tick(&format!("gross={last}"), "outcome=3 net=1000 status=2 error=0");
        bench.check("COPR", "status=1");
        if armed {
            lift_on(&mut bench);
        } else {
            lies_unseen(&mut bench);
        }
    }
}

/// A tick that error 7 ended is a running tick: it arms.
#[test]
fn arming_on_a_tick_that_error_7_ended() {
    for (last, armed) in [(100, true), (101, false)] {
        let mut bench = bench_mode("tf=9999");
        for _ in 0..8 {
            bench.foreign_pulse();
        }
        lift_on(&mut bench);
        bench.tick("gross=1000", "outcome=3");
        bench.tick(&format!("foreign=1 gross={last}"), "status=2 error=7");
        bench.check("COPR", "status=1");
        if armed {
            lift_on(&mut bench);
        } else {
            lies_unseen(&mut bench);
        }
    }
}

/// A ninth signal on the tick that would detect ends it before step 7; the arming is kept.
#[test]
fn error_7_on_the_tick_of_a_detection() {
    let mut bench = bench_mode("tf=9999");
    for _ in 0..8 {
        bench.foreign_pulse();
    }
    bench.ticks(9, "gross=1000", "detected=0");
    bench.tick("foreign=1 gross=1000", "status=2 error=7 detected=0 busy=0");
    bench.check("COPR", "status=1");
    lift_on(&mut bench);
}

/// An unsafe tick is no running tick: its gross neither arms nor stands among the ten.
#[test]
fn an_unsafe_tick_does_not_arm() {
    let mut bench = weighed("need=1");
    bench.tick("safety=254 gross=0", "status=2 error=1");
    bench.check("COPR", "refused=5 input=1");
    bench.tick("gross=0", "status=2");
    bench.check("COPR", "status=1");
    lies_unseen(&mut bench);
    // With a box in hand it keeps its ticks left, and is judged behind the pause.
    let mut bench = bench_mode("need=1 ta=2");
    lift_on(&mut bench);
    bench.tick("gross=1000", "outcome=0");
    bench.tick("safety=254 gross=0", "status=2 error=1 busy=1 outcome=0");
    bench.tick("gross=0", "status=2 busy=1 outcome=0");
    bench.check("COPR", "status=1");
    bench.tick("gross=1002", "outcome=3 net=1001 detected=0");
    lies_unseen(&mut bench);
}

/// nearzero is the active code's at the tick, for arming and for detection.
#[test]
fn nearzero_of_the_active_code() {
    let other = store("code=1 nearzero=2000");
    let mut bench = Bench::stopped("mode=4");
    bench.check(&other, "status=0");
    bench.check("CCOD0001", "status=0");
    bench.check("COPR", "status=1");
    bench.ticks(20, "gross=1000", "detected=0");
    bench.check("CCOD0000", "status=1");
    bench.tick("gross=1000", "detected=1");
    bench.tick("gross=1000", "outcome=3");
    lies_unseen(&mut bench);
    bench.check("CCOD0001", "status=1");
    bench.tick("gross=1000", "detected=0");
    bench.check("CCOD0000", "status=1");
    bench.tick("gross=1000", "detected=1");
    // A recall alone, with no tick between, arms nothing.
    bench.tick("gross=1000", "outcome=3");
    bench.check("CCOD0001", "status=1");
    bench.check("CCOD0000", "status=1");
    lies_unseen(&mut bench);
}

/// A store during a pause sets nearzero for the ticks behind it.
#[test]
fn nearzero_stored_during_a_pause() {
    let mut bench = weighed("need=1");
    bench.tick("safety=0 gross=1000", "status=2 error=1");
    bench.check(&store("nearzero=1000"), "status=2");
    bench.tick("gross=1000", "status=2");
    bench.check("COPR", "status=1");
    bench.tick("gross=1000", "detected=0");
    bench.ticks(8, "gross=1001", "detected=0 busy=0");
    bench.tick("gross=1002", "detected=1");
}

/// "Detects nothing by the sensor": neither edge does, with nothing in hand and with a box in hand.
#[test]
fn the_sensor_detects_nothing() {
    for edge in [1, 2] {
        let mut bench = bench_mode(&format!("edge={edge} ta=9"));
        for sensor in [1, 0, 1, 0] {
            bench.tick(&format!("sensor={sensor}"), "detected=0 busy=0");
        }
        bench.ticks(9, "sensor=1 gross=1000", "detected=0");
        bench.tick("gross=1000", "detected=1");
        for sensor in [1, 0, 1, 0, 1, 0, 1, 0] {
            bench.tick(&format!("sensor={sensor} gross=1000"), "detected=0 outcome=0 busy=1");
        }
        bench.tick("sensor=1 gross=1000", "detected=0 outcome=3");
        bench.check("report=0", "total=1 double=0");
    }
}

/// "Whose level step 1 still settles": back in mode 1 a level that settled makes no second edge.
#[test]
fn the_level_still_settles() {
    let mut bench = bench_mode("edge=1 tc=2");
    bench.ticks(2, "sensor=1", "detected=0");
    bench.check("CSTD", "status=0");
    bench.check(&setup("edge=1 tc=2"), "status=0");
    bench.check("COPR", "status=1 conveyor=1");
    bench.ticks(5, "sensor=1", "detected=0");
    bench.ticks(2, "sensor=0", "detected=0");
    bench.tick("sensor=1", "detected=0");
    bench.tick("sensor=1", "detected=1");
    // One tick of two in mode 4, the other in mode 1.
    let mut bench = bench_mode("edge=1 tc=2");
    bench.tick("sensor=1", "detected=0");
    bench.check("CSTD", "status=0");
    bench.check(&setup("edge=1 tc=2"), "status=0");
    bench.check("COPR", "status=1");
    bench.tick("sensor=1", "detected=1");
}

/// Back in mode 1 or 2 a box that lies still on the scale is not detected.
#[test]
fn a_belt_detects_nothing_by_the_scale() {
    for mode in ["mode=1", "mode=2 edge=2"] {
        let mut bench = bench_mode("");
        bench.check("CSTD", "status=0");
        bench.check(&setup(mode), "status=0");
        bench.check("COPR", "status=1");
        lies_unseen(&mut bench);
    }
}

/// "Mode 4 keeps the conveyor at 0", with and without a box in hand.
#[test]
fn the_conveyor_stands() {
    let mut bench = Bench::stopped("mode=4");
    bench.check("COPR", "status=1 conveyor=0");
    bench.ticks(9, "gross=1000", "status=1 conveyor=0");
    bench.tick("gross=1000", "detected=1 conveyor=0");
    bench.tick("gross=1000", "outcome=3 conveyor=0");
    bench.check("CNOP", "status=1 conveyor=0");
}

/// "Sort masks other than 0 in mode 4 are refused 4; edge is not used." 2 and the status come before it.
#[test]
fn setups_of_mode_4() {
    let mut bench = Bench::stopped("");
    for (mode, wanted) in [(0, "refused=2"), (3, "refused=2"), (4, "status=0"), (5, "refused=2")] {
        bench.check(&setup(&format!("mode={mode}")), wanted);
    }
    for (edge, wanted) in [(0, "refused=2"), (1, "status=0"), (2, "status=0"), (3, "refused=2")] {
        bench.check(&setup(&format!("mode=4 edge={edge}")), wanted);
    }
    bench.check(&setup(""), "status=0");
    for k in 1..=6 {
        for mask in [2, 32, 254] {
            bench.check(&setup(&format!("mode=4 sort{k}={mask}")), "refused=4 input=0");
        }
        for wrong in [format!("sort{k}=33"), format!("sort{k}=32 need=256"), "sort1=256".into()] {
            bench.check(&setup(&format!("mode=4 {wrong}")), "refused=2");
        }
        bench.check(&setup(&format!("mode=3 sort{k}=32")), "refused=2");
    }
    // Refused, it is in mode 1 as before.
    bench.check("COPR", "status=1 conveyor=1");
    bench.check(&setup("mode=4 sort3=32"), "refused=3");
    bench.check("CSTP", "status=3");
    bench.check(&setup("mode=4 sort3=32"), "refused=9");
    let mut bench = Bench::running("need=1");
    bench.tick("safety=0", "status=2");
    bench.check(&setup("mode=4 sort3=32"), "refused=10");
    bench.check(&setup("mode=4 sort3=33"), "refused=2");
    bench.check(&setup("mode=3"), "refused=2");
}

/// Steps 5 and 6 are those of a belt: tw and ta, a foreign signal, a box lifted off too early.
#[test]
fn a_hand_weighed_box_is_judged_as_a_belt_box() {
    let mut bench = bench_mode("tw=2 ta=3 stop=4");
    lift_on(&mut bench);
    bench.ticks(2, "gross=9000", "outcome=0");
    for gross in [1000, 1001] {
        bench.tick(&format!("gross={gross}"), "outcome=0");
    }
    bench.tick("gross=1003", "outcome=3 net=1001 tallied=1");
    bench.tick("foreign=1", "outcome=0");
    lift_on(&mut bench);
    bench.ticks(4, "gross=1000", "outcome=0");
    bench.tick("gross=1000", "outcome=6 net=0 tallied=1 status=2 error=5");
    bench.check("COPR", "status=1");
    bench.tick("gross=0", "outcome=0");
    lift_on(&mut bench);
    bench.ticks(4, "gross=100", "outcome=0");
    bench.tick("gross=100", "outcome=9 tallied=0");
    lift_on(&mut bench);
}

/// "The same balance and sheets": the counts, cancel and the code at the verdict.
#[test]
fn a_hand_weighed_box_enters_the_same_sheets() {
    let mut bench = weighed("");
    bench.tick("gross=0", "outcome=0");
    bench.ticks(9, "gross=950", "detected=0");
    bench.tick("gross=950", "detected=1");
    bench.tick("gross=950", "outcome=2 net=950");
    bench.check("report=0", "total=2 ok=1 lo=1 max=1000 min=950 sum=1950 class10=1 class5=1");
    bench.check("CCAC", "status=1");
    bench.check("CCAC", "refused=7");
    bench.check("report=0", "total=1 ok=1 lo=0 max=1000 min=1000 sum=1000 class10=1 class5=0");
    bench.tick("gross=0", "outcome=0");
    lift_on(&mut bench);
    bench.check("CCOD0001", "status=1");
    bench.tick("gross=1000", "outcome=5 net=1000 tallied=1");
    bench.check("report=1", "total=1 hihi=1");
    bench.check("CCOD0000", "status=1");
    bench.check("CSTD", "status=0");
    // A belt box on the same sheet.
    bench.check(&setup(""), "status=0");
    bench.tick("", "status=0");
    bench.check("COPR", "status=1");
    bench.weigh(1000, "outcome=3");
    bench.check("report=0", "total=2 ok=2");
}

/// Stop and emergency abandon a box in hand.
#[test]
fn a_hand_weighed_box_is_abandoned() {
    for (end, status) in [("CSTP", 3), (sample("emergency=1 gross=1000").as_str(), 3), ("CSTD", 0)]
    {
        let mut bench = bench_mode("tw=5");
        lift_on(&mut bench);
        if end == "CSTD" {
            bench.pause();
        }
        bench.check(end, &format!("status={status} outcome=10 busy=0 tallied=0 error=none"));
        bench.tick("gross=0", "status=0 outcome=0");
        bench.check("report=0", "total=0");
        bench.check("COPR", "status=1");
        lift_on(&mut bench);
    }
}
