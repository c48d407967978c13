//! How places of document 01 with two readings are read: the line.

use crate::bench::{sample, setup, store, Bench};

#[test]
fn a_foreign_signal_is_no_part_of_busy() {
    let mut bench = Bench::running("tf=50");
    bench.tick("foreign=1", "busy=0");
    bench.check("CSTD", "status=0");
    let mut bench = Bench::running("tf=0");
    bench.tick("foreign=1", "busy=0");
    bench.check("CSTD", "status=0");
}

#[test]
fn a_paused_line_whose_sorter_is_on_is_busy_and_prints_sorter_0() {
    let mut bench = Bench::running("sort=32 ts=1 to=5");
    bench.weigh(1000, "outcome=3 busy=1 sorter=0");
    bench.tick("", "busy=1 sorter=1");
    bench.check("CSTD", "status=2 busy=1 sorter=0 error=0");
    bench.ticks(9, "", "status=2 busy=1 sorter=0");
    bench.check("COPR", "status=1 busy=1 sorter=1");
    bench.ticks(4, "", "busy=1 sorter=1");
    bench.tick("", "busy=0 sorter=0");
}

#[test]
fn the_item_and_the_queue_hold_while_paused() {
    let mut bench = Bench::running("tw=2 ta=2 sort=32 ts=3 to=2");
    bench.tick("sensor=1", "detected=1");
    bench.tick("gross=7000", "outcome=0");
    bench.pause();
    bench.ticks(9, "gross=7000", "status=2 outcome=0 busy=1");
    bench.check("COPR", "status=1");
    bench.tick("gross=7000", "outcome=0");
    bench.tick("gross=1000", "outcome=0");
    bench.tick("gross=1001", "outcome=3 net=1001");
    bench.tick("", "busy=1 sorter=0");
    bench.pause();
    bench.ticks(9, "", "status=2 busy=1");
    bench.check("COPR", "status=1");
    bench.tick("", "sorter=0");
    bench.tick("", "sorter=1");
}

#[test]
fn the_foreign_delay_holds_while_paused() {
    let mut bench = Bench::running("tf=2 ta=2");
    bench.tick("sensor=1 foreign=1", "detected=1");
    bench.pause();
    bench.ticks(9, "", "status=2");
    bench.check("COPR", "status=1");
    bench.tick("gross=1000", "outcome=0");
    bench.tick("gross=1000", "outcome=6 net=0");
}

#[test]
fn a_paused_line_still_keeps_its_last_sample() {
    let mut bench = Bench::running("tc=3 need=1 ta=9");
    bench.ticks(2, "sensor=1", "detected=0");
    bench.tick("sensor=1", "detected=1");
    bench.pause();
    bench.ticks(3, "sensor=0", "status=2");
    bench.ticks(3, "sensor=1 foreign=1", "status=2 detected=0 outcome=0");
    bench.tick("sensor=1 foreign=1 safety=254 gross=5000", "status=2");
    bench.check("COPR", "refused=5 input=1");
    bench.tick("sensor=1 foreign=1 gross=5000", "status=2");
    bench.check("COPR", "status=1");
    bench.ticks(8, "sensor=1 foreign=1 gross=1000", "detected=0 outcome=0");
    bench.tick("sensor=1 foreign=1 gross=1000", "detected=0 outcome=3");
    bench.check("CSTD", "status=0");
    bench.check("COPR", "refused=6 input=0");
}

#[test]
fn an_unsafe_sample_on_a_paused_line_changes_no_error() {
    let mut bench = Bench::running("need=128 ta=9");
    bench.tick("sensor=1", "detected=1");
    bench.pause();
    bench.tick("safety=0", "status=2 error=0");
    bench.check("CRER", "status=2 error=none");
    bench.tick("safety=0", "status=2 error=none");
    bench.check("COPR", "refused=5 input=8");
}

#[test]
fn an_ended_foreign_signal_outlives_stop_emergency_and_setup() {
    let mut bench = Bench::running("");
    bench.foreign_pulse();
    bench.check("CSTD", "status=0");
    bench.check(&setup("tf=99"), "status=0");
    bench.check("CSTP", "status=3");
    bench.tick("emergency=1", "status=3");
    bench.tick("", "status=0");
    bench.check("COPR", "status=1");
    bench.weigh(1000, "outcome=6 net=0");
    bench.weigh(1000, "outcome=3");
}

#[test]
fn a_foreign_delay_outlives_stop_emergency_and_setup() {
    let mut bench = Bench::running("tf=3");
    bench.tick("foreign=1", "outcome=0");
    bench.check("CSTD", "status=0");
    bench.check(&setup("tf=99"), "status=0");
    bench.check("CSTP", "status=3");
    bench.tick("", "status=0");
    bench.check("COPR", "status=1");
    bench.weigh(1000, "outcome=3");
    bench.weigh(1000, "outcome=6");
}

#[test]
fn setup_leaves_the_count_of_differing_sensor_ticks() {
    let mut bench = Bench::stopped("tc=5");
    bench.ticks(3, "sensor=1", "detected=0");
    bench.check(&setup("tc=2"), "status=0");
    bench.check("COPR", "status=1");
    bench.tick("sensor=1", "detected=1");
    let mut bench = Bench::stopped("tc=9");
    bench.ticks(3, "sensor=1", "detected=0");
    bench.check(&setup("tc=5"), "status=0");
    bench.check("COPR", "status=1");
    bench.tick("sensor=1", "detected=0");
    bench.tick("sensor=1", "detected=1");
}

#[test]
fn a_refused_sample_keeps_nothing() {
    let mut bench = Bench::running("need=1");
    bench.tick("sensor=1 emergency=1 safety=0 foreign=1 gross=1000000", "refused=2");
    bench.check("CNOP", "status=1 busy=0");
    bench.tick("sensor=1 foreign=1", "detected=1");
    bench.tick("gross=1000", "outcome=6");
    let mut bench = Bench::stopped("need=1");
    bench.tick("sensor=2 emergency=1 safety=0 gross=5000", "refused=2");
    bench.check("COPR", "status=1");
}

#[test]
fn a_wait_does_not_fall_on_the_tick_that_starts_it() {
    let mut bench = Bench::running("sort=32 ts=1 to=1");
    bench.weigh(1000, "outcome=3 busy=1 sorter=0");
    bench.tick("", "busy=1 sorter=1");
    bench.tick("", "busy=0 sorter=0");
}

#[test]
fn a_delay_does_not_fall_on_the_tick_that_starts_it() {
    let mut bench = Bench::running("tf=1");
    bench.tick("sensor=1", "detected=1");
    bench.tick("foreign=1 gross=1000", "outcome=3");
    bench.weigh(1000, "outcome=6");
}

#[test]
fn a_signal_that_ends_in_step_5_counts_in_step_6() {
    let mut bench = Bench::running("tf=0");
    bench.tick("sensor=1", "detected=1");
    bench.tick("foreign=1 gross=1000", "outcome=6");
    let mut bench = Bench::running("tf=1");
    bench.tick("sensor=1 foreign=1", "detected=1");
    bench.tick("gross=1000", "outcome=6");
}

#[test]
fn a_place_that_step_4_frees_is_free_in_step_6() {
    for (ts, outcome) in [(16, 3), (17, 8)] {
        let mut bench = Bench::running(&format!("sort=32 ts={ts}"));
        for _ in 0..8 {
            bench.weigh(1000, "outcome=3 sorter=0");
        }
        bench.weigh(1000, &format!("outcome={outcome} tallied=1"));
    }
}

#[test]
fn a_dismissed_box_leaves_the_signal_and_the_chance_to_cancel() {
    let mut bench = Bench::running("");
    bench.weigh(1000, "outcome=3 tallied=1");
    bench.foreign_pulse();
    bench.weigh(100, "outcome=9 net=0 tallied=0");
    bench.check("CCAC", "status=1");
    bench.weigh(101, "outcome=6 net=0 tallied=1");
    bench.check("report=0", "total=1 ok=0 foreign=1");
}

#[test]
fn a_two_on_verdict_leaves_the_signal() {
    let mut bench = Bench::running("ta=3");
    bench.foreign_pulse();
    bench.tick("sensor=1", "detected=1");
    bench.tick("sensor=0", "detected=0");
    bench.tick("sensor=1", "detected=1 outcome=7 net=0 tallied=1 busy=0");
    bench.tick("sensor=0", "detected=0");
    bench.tick("sensor=1", "detected=1");
    bench.ticks(2, "sensor=1 gross=1000", "outcome=0");
    bench.tick("sensor=1 gross=1000", "outcome=6");
}

#[test]
fn a_foreign_verdict_that_becomes_crash_has_used_the_signal_up() {
    let mut bench = Bench::running("sort=36 ts=999");
    for _ in 0..8 {
        bench.weigh(1000, "outcome=3");
    }
    bench.foreign_pulse();
    bench.weigh(1000, "outcome=8 net=0");
    bench.weigh(800, "outcome=1");
}

#[test]
fn two_on_with_a_full_queue_stays_two_on_and_is_not_queued() {
    let mut bench = Bench::running("ta=3 sort=34 ts=60 to=1");
    for _ in 0..8 {
        bench.tick("sensor=1", "detected=1");
        bench.ticks(2, "gross=1000", "outcome=0");
        bench.tick("gross=1000", "outcome=3");
    }
    bench.tick("sensor=1", "detected=1");
    bench.tick("sensor=0", "detected=0");
    bench.tick("sensor=1", "detected=1 outcome=7");
    // The eighth wait has fallen three times; a ninth would end three ticks later.
    bench.ticks(56, "", "busy=1");
    bench.tick("", "busy=1 sorter=1");
    bench.tick("", "busy=0 sorter=0");
}

#[test]
fn an_edge_on_the_tick_of_a_verdict() {
    for (stop, wanted) in [
        (0, "outcome=3 detected=1 status=1 busy=1"),
        (32, "outcome=3 detected=0 status=2 busy=0 error=0"),
    ] {
        let mut bench = Bench::running(&format!("ta=2 stop={stop}"));
        bench.tick("sensor=1", "detected=1");
        bench.tick("sensor=0 gross=1000", "outcome=0");
        bench.tick("sensor=1 gross=1000", wanted);
    }
}

#[test]
fn emergency_ends_with_the_next_sample_that_has_emergency_0() {
    let mut bench = Bench::running("");
    bench.check("CSTP", "status=3 conveyor=0");
    bench.check("CSTP", "status=3");
    bench.check("CSTD", "refused=9");
    bench.check("COPR", "refused=9");
    bench.check(&setup(""), "refused=9");
    bench.check(&store(""), "status=3");
    bench.tick("emergency=1", "status=3");
    bench.tick("", "status=0");
    bench.check("CSTD", "status=0");
    bench.check("COPR", "status=1");
}

#[test]
fn setup_and_store_by_status() {
    let mut bench = Bench::running("ta=9");
    bench.check("COPR", "refused=3");
    bench.check(&setup(""), "refused=3");
    bench.check(&store(""), "refused=3");
    bench.tick("sensor=1", "detected=1");
    bench.pause();
    bench.check(&setup(""), "refused=10");
    bench.check(&store(""), "status=2");
}

#[test]
fn run_from_paused_checks_safety_and_not_occupied() {
    let mut bench = Bench::running("need=12");
    bench.tick("safety=243", "status=2 error=1");
    bench.check("COPR", "refused=5 input=3");
    bench.tick("safety=247 gross=5000", "status=2 error=1");
    bench.check("COPR", "refused=5 input=4");
    bench.tick("safety=12 gross=5000", "status=2 error=1");
    bench.check("COPR", "status=1 error=none");
}

#[test]
fn error_reset_while_paused_leaves_it_paused() {
    let mut bench = Bench::running("stop=32");
    bench.weigh(1000, "outcome=3 status=2 error=0");
    bench.check("CRER", "status=2 error=none");
}

#[test]
fn what_ends_the_chance_to_cancel() {
    for end in ["CCAC", "CCOD0000", "CCOD0001", "CDTL0000", "CETL"] {
        let mut bench = Bench::running("");
        bench.check("CCAC", "refused=7 input=0");
        bench.weigh(1000, "tallied=1");
        bench.check(end, "status=1");
        bench.check("CCOD0000", "status=1");
        bench.check("CCAC", "refused=7");
    }
    for end in ["CCAC", "CCOD0000", "CDTL0000", "CETL"] {
        let mut bench = Bench::running("");
        bench.weigh(1000, "tallied=1");
        bench.check(end, "status=1");
        bench.check("CCAC", "refused=7");
    }
}

#[test]
fn what_leaves_the_chance_to_cancel() {
    let mut bench = Bench::running("");
    bench.weigh(900, "tallied=1");
    bench.weigh(1000, "tallied=1");
    bench.check("CDTL0001", "status=1");
    bench.check("CCOD0100", "refused=2");
    bench.check("CDTL0100", "refused=2");
    bench.check("report=0", "total=2");
    bench.check("CRER", "status=1");
    bench.tick("", "status=1");
    bench.check("CSTD", "status=0");
    bench.check(&setup("ta=5"), "status=0");
    bench.check(&store("target=995"), "status=0");
    bench.check("COPR", "status=1");
    bench.check("CSTP", "status=3");
    bench.check(&sample(""), "status=0");
    bench.check("CCAC", "status=0");
    bench.check("report=0", "total=1 lo=1 ok=0 max=900");
}
