//! The landed change requests of document 02.

use reference::print;
use reference::sheet::Sheet;
use reference::tally::{class, nearest, Tally};
use reference::verdict::Verdict;

use crate::bench::{sample, setup, store, Bench};

/// T-03: the sum at least 0 or negative, the remainder below half, exactly half, above half.
fn conditions(sum: i64, number: i64) -> [bool; 6] {
    let twice = 2 * (sum.abs() % number);
    let thirds = [twice < number, twice == number, twice > number];
    let [below, half, above] = thirds.map(|third| sum >= 0 && third);
    let [negative_below, negative_half, negative_above] = thirds.map(|third| sum < 0 && third);
    [below, half, above, negative_below, negative_half, negative_above]
}

/// T-03: for small sums and at the bound exactly one case applies, and its result is the rounding.
#[test]
fn mean_rounding_by_cases() {
    for number in (1..=60).chain([999_998, 999_999]) {
        let bound = 999_999 * number;
        for sum in (-200..=200).chain([-bound, 1 - bound, bound - 1, bound]) {
            let cases = conditions(sum, number);
            assert_eq!(cases.iter().filter(|&&applies| applies).count(), 1, "{sum} over {number}");
            let quotient = sum.abs() / number;
            let results =
                [quotient, quotient + 1, quotient + 1, -quotient, -quotient - 1, -quotient - 1];
            let case = cases.iter().position(|&applies| applies).expect("a case");
            assert_eq!(nearest(sum, number), results[case], "{sum} over {number}");
        }
    }
}

/// T-03: a number for each case, as the sheet's mean; a negative sum that rounds to 0 prints 0.
#[test]
fn worked_means_of_the_sheet() {
    let mut bench = Bench::stopped("");
    bench.check(&store("target=0 lolo=-2000 lo=-1000 hi=1000 hihi=2000 tare=5000"), "status=0");
    bench.check("COPR", "status=1");
    let sheets: [(&[i64], &str); 7] = [
        (&[333, 333, 334], "sum=1000 mean=333"),
        (&[1003, 1004], "sum=2007 mean=1004"),
        (&[666, 667, 667], "sum=2000 mean=667"),
        (&[-333, -333, -334], "sum=-1000 mean=-333"),
        (&[-1003, -1004], "sum=-2007 mean=-1004"),
        (&[-1, -1, 0], "sum=-2 mean=-1"),
        (&[0, 0, -1], "sum=-1 mean=0"),
    ];
    for (nets, wanted) in sheets {
        for net in nets {
            bench.weigh(5000 + net, &format!("net={net}"));
        }
        bench.check("report=0", wanted);
        bench.check("CETL", "status=1");
    }
}

/// T-03: the same rounding in step 6, where a mean below 0 is dismissed.
#[test]
fn worked_means_of_step_6() {
    let boxes: [(&str, &[i64], &str); 4] = [
        ("ta=3", &[333, 333, 334], "net=333"),
        ("ta=2", &[1003, 1004], "net=1004"),
        ("ta=3", &[666, 667, 667], "net=667"),
        ("ta=2", &[-1003, -1004], "outcome=9"),
    ];
    for (averaging, grosses, wanted) in boxes {
        let mut bench = Bench::running(averaging);
        bench.tick("sensor=1", "detected=1");
        let (last, before) = grosses.split_last().expect("a gross");
        for gross in before {
            bench.tick(&format!("gross={gross}"), "outcome=0");
        }
        bench.tick(&format!("gross={last}"), wanted);
    }
}

/// T-06: the largest whole tenth that fits, not the nearest: weights, and the sheet's sd and sdp.
const SPREADS: [(&[i64], &str); 12] = [
    (&[1, 2, 4], "sd=1.5 sdp=1.2"),
    (&[1000], "sd=none sdp=0.0"),
    (&[1000, 1000], "sd=0.0 sdp=0.0"),
    (&[1000, 1001], "sd=0.7 sdp=0.5"),
    // 168.9985.., and half of 239
    (&[1000, 1239], "sd=168.9 sdp=119.5"),
    // 408.0004.., and half of 577
    (&[1000, 1577], "sd=408.0 sdp=288.5"),
    // 984.9997.., and half of 1393
    (&[1000, 2393], "sd=984.9 sdp=696.5"),
    (&[1000, 1001, 1002], "sd=1.0 sdp=0.8"),
    (&[1000, 1000, 1000, 1000, 1003], "sd=1.3 sdp=1.2"),
    // the root of 2/8 and of 18/8
    (&[999, 1000, 1000, 1000, 1000, 1000, 1000, 1000, 1001], "sd=0.5 sdp=0.4"),
    (&[997, 1000, 1000, 1000, 1000, 1000, 1000, 1000, 1003], "sd=1.5 sdp=1.4"),
    // the root of 81/100
    (&[1000, 1000, 1000, 1000, 1000, 1000, 1000, 1000, 1000, 1003], "sd=0.9 sdp=0.9"),
];

#[test]
fn spread_in_tenths() {
    let mut bench = Bench::stopped("");
    bench.check(&store("nearzero=0"), "status=0");
    bench.check("COPR", "status=1");
    for (weights, wanted) in SPREADS {
        for weight in weights {
            bench.weigh(*weight, "tallied=1");
        }
        bench.check("report=0", wanted);
        bench.check("CETL", "status=1");
    }
}

/// T-06 at the limit: 999,999 boxes, all of 999,999, then half of them of -999,998.
#[test]
fn spread_of_a_full_sheet() {
    for (boxes, wanted) in [
        ((999_999, 0), "sum=999998000001 sd=0.0 sdp=0.0"),
        ((500_000, 499_999), "sum=1499998 sd=999998.9 sdp=999998.4"),
    ] {
        let tally = full(boxes);
        let mut out = Vec::new();
        print::sheet(&mut out, &Sheet::of(0, &tally, 0));
        let text = String::from_utf8(out).expect("answers are ASCII");
        for field in wanted.split(' ') {
            assert!(text.lines().any(|line| line == field), "wanted {field}, got {text}");
        }
    }
}

/// The tally of so many boxes of 999,999 and of -999,998.
fn full((heavy, light): (i64, i64)) -> Tally {
    let mut tally = Tally::default();
    for _ in 0..heavy {
        assert!(tally.add(Verdict::HiHi, 999_999, 0));
    }
    for _ in 0..light {
        assert!(tally.add(Verdict::LoLo, -999_998, 0));
    }
    tally
}

/// Signals on so many ticks, each with one tick of level 0 behind it.
fn signals(bench: &mut Bench, count: usize) {
    for _ in 0..count {
        bench.foreign_pulse();
    }
}

/// T-04: each change starts a delay of its own, and each ended signal is one foreign verdict.
#[test]
fn each_signal_meets_its_own_box() {
    let mut bench = Bench::running("tf=6");
    bench.foreign_pulse();
    bench.weigh(1000, "outcome=3");
    bench.foreign_pulse();
    bench.weigh(1000, "outcome=6");
    bench.weigh(1000, "outcome=3");
    bench.weigh(1000, "outcome=6");
    bench.weigh(1000, "outcome=3");
    let mut bench = Bench::running("");
    signals(&mut bench, 8);
    for _ in 0..8 {
        bench.weigh(1000, "outcome=6 error=none");
    }
    bench.weigh(1000, "outcome=3");
}

/// T-04: a signal keeps the tf of its start, and the delay 0 ends before an older, longer one.
#[test]
fn a_signal_keeps_the_delay_of_its_start() {
    let mut bench = Bench::running("tf=9");
    bench.foreign_pulse();
    bench.check("CSTD", "status=0");
    bench.check(&setup("tf=0"), "status=0");
    bench.check("COPR", "status=1");
    bench.tick("sensor=1 foreign=1", "detected=1");
    bench.tick("gross=1000", "outcome=6");
    bench.weigh(1000, "outcome=3");
    bench.ticks(3, "", "outcome=0");
    bench.weigh(1000, "outcome=6");
    bench.weigh(1000, "outcome=3");
}

/// T-04: a ninth signal pauses with error 7 and is not carried; ended ones count. No stop bit is asked.
#[test]
fn a_ninth_signal_pauses_with_error_7() {
    for tf in [0, 9_999] {
        let mut bench = Bench::running(&format!("tf={tf}"));
        signals(&mut bench, 8);
        bench.tick("foreign=1", "status=2 error=7 busy=0 conveyor=0 outcome=0");
        bench.check("CNOP", "status=2 error=7");
        bench.check("COPR", "status=1 error=none");
        bench.tick("foreign=1", "status=1 error=none");
        bench.tick("foreign=0", "status=1");
        bench.tick("foreign=1", "status=2 error=7");
        bench.check("CRER", "status=2 error=none");
    }
    let mut bench = Bench::running("");
    signals(&mut bench, 8);
    bench.tick("foreign=1", "status=2 error=7");
    bench.check("CSTD", "status=0 error=none");
    bench.check("COPR", "status=1");
    for _ in 0..8 {
        bench.weigh(1000, "outcome=6");
    }
    bench.weigh(1000, "outcome=3");
}

/// T-04: error 7 comes after step 5 and before step 6: the sorter runs, the item keeps ticks and sum, an edge is lost.
#[test]
fn error_7_ends_the_tick_before_step_6() {
    let mut bench = Bench::running("ta=2 tf=20 sort=32 ts=20 to=9");
    bench.tick("sensor=1", "detected=1");
    bench.tick("gross=1000", "outcome=0");
    bench.tick("gross=1000", "outcome=3 busy=1");
    signals(&mut bench, 8);
    bench.tick("sensor=1", "detected=1");
    bench.tick("sensor=1 gross=1000", "outcome=0 sorter=0");
    bench.tick("sensor=1 foreign=1 gross=9000", "status=2 error=7 outcome=0 busy=1");
    bench.ticks(3, "sensor=1 gross=9000", "status=2 error=7 outcome=0");
    bench.check("COPR", "status=1");
    bench.tick("sensor=1 gross=1002", "outcome=3 net=1001 sorter=1");
    bench.tick("sensor=0", "detected=0");
    // the verdict's own tick, with an ended signal there to use up; and an edge
    let mut bench = Bench::running("ta=2");
    signals(&mut bench, 8);
    bench.tick("sensor=1", "detected=1");
    bench.tick("gross=1000", "outcome=0");
    bench.tick("foreign=1 gross=1000", "status=2 error=7 outcome=0 busy=1");
    bench.check("COPR", "status=1");
    bench.tick("gross=1000", "outcome=6 error=none");
    bench.tick("foreign=1", "status=1");
    bench.tick("sensor=1", "detected=1");
    bench.tick("foreign=1 sensor=1", "status=2 error=7");
    bench.check("CSTD", "outcome=10");
    bench.check("COPR", "status=1");
    bench.tick("sensor=0", "detected=0");
    bench.tick("sensor=1 foreign=1", "status=2 error=7 detected=0 busy=0");
    bench.check("COPR", "status=1");
    bench.tick("sensor=1", "detected=0");
}

/// T-04: a ninth change on a sample that ended earlier is lost without error 7; a crash uses its signal up.
#[test]
fn a_ninth_change_on_an_ended_sample_is_lost() {
    let mut bench = Bench::running("need=1 sort=36 ts=999");
    signals(&mut bench, 8);
    bench.tick("foreign=1 safety=0", "status=2 error=1");
    bench.tick("", "status=2 error=1");
    bench.tick("foreign=1", "status=2 error=1");
    bench.check("COPR", "status=1");
    bench.tick("foreign=1", "status=1 error=none");
    for _ in 0..8 {
        bench.weigh(1000, "outcome=6");
    }
    bench.weigh(1000, "outcome=8");
    bench.foreign_pulse();
    bench.weigh(1000, "outcome=8");
    bench.weigh(800, "outcome=1");
}

/// T-07: 3 while running, 9 in emergency, 10 for a setup while paused; 2 comes before them, 4, 5 and 6 behind.
#[test]
fn why_the_status_refuses() {
    let mut bench = Bench::stopped("need=2");
    bench.tick("safety=0 gross=5000", "status=0");
    bench.check("CSTP", "status=3");
    bench.check("COPR", "refused=9 input=0");
    bench.check("CSTD", "refused=9");
    for (change, wanted) in
        [("", "refused=9"), ("mode=2 edge=1", "refused=9"), ("mode=3", "refused=2")]
    {
        bench.check(&setup(change), wanted);
    }
    for (change, wanted) in
        [("", "status=3"), ("lolo=999999", "refused=4"), ("tare=-1", "refused=2")]
    {
        bench.check(&store(change), wanted);
    }
    bench.tick("safety=255 gross=100", "status=0");
    bench.check("COPR", "status=1");
    bench.check("COPR", "refused=3");
    bench.check(&setup("mode=2 edge=1"), "refused=3");
    bench.check(&store("lolo=999999"), "refused=3");
    bench.tick("safety=0", "status=2 error=1");
    for (change, wanted) in
        [("", "refused=10"), ("mode=2 edge=1", "refused=10"), ("mode=3", "refused=2")]
    {
        bench.check(&setup(change), wanted);
    }
    bench.check(&store(""), "status=2");
    bench.check("COPR", "refused=5 input=2");
    bench.check("CSTD", "status=0");
}

/// The changes that set every sorter's field of this name.
fn each_sorter(key: &str, value: i64) -> String {
    (1..=6).map(|k| format!(" {key}{k}={value}")).collect()
}

/// The reply's sorter field with these sorters on.
fn on(sorters: &[u32]) -> String {
    format!("sorter={}", sorters.iter().map(|k| 1 << (k - 1)).sum::<i64>())
}

/// Two different sorters, in every way.
fn pairs() -> impl Iterator<Item = (u32, u32)> {
    let all = (1..=6).flat_map(|one| (1..=6).map(move |other| (one, other)));
    all.filter(|(one, other)| one != other)
}

/// T-01: a verdict enters the queue of every sorter whose mask has its bit, and of no other.
#[test]
fn a_verdict_enters_every_sorter_that_wants_it() {
    let masks = "sort1=32 sort2=96 sort3=64 sort4=36 sort5=0 sort6=254";
    let mut bench = Bench::running(&format!("ta=3 {masks}"));
    let boxes: [(&str, i64, i64, &[u32]); 6] = [
        ("", 800, 1, &[6]),
        ("", 950, 2, &[2, 3, 6]),
        ("", 1000, 3, &[1, 2, 4, 6]),
        ("", 1050, 4, &[6]),
        ("", 1200, 5, &[6]),
        ("foreign=1", 1000, 6, &[4, 6]),
    ];
    for (signal, gross, outcome, sorters) in boxes {
        bench.tick(&format!("sensor=1 {signal}"), "detected=1");
        bench.ticks(2, &format!("gross={gross}"), "outcome=0 sorter=0");
        bench.tick(&format!("gross={gross}"), &format!("outcome={outcome} sorter=0 busy=1"));
        bench.tick("", &format!("{} busy=1", on(sorters)));
        bench.tick("", "sorter=0 busy=0");
    }
    bench.tick("sensor=1", "detected=1");
    bench.tick("", "outcome=0");
    bench.tick("sensor=1", "outcome=7 busy=1");
    bench.tick("", &on(&[6]));
    bench.tick("", "sorter=0 busy=0");
}

/// T-01: one of the wanted queues holds 8: crash, which enters none of them, also not those with
/// room. The same full queue does not matter to a verdict that its sorter does not want.
#[test]
fn one_full_queue_of_those_wanted_makes_crash() {
    for (full, room) in pairs() {
        let set = format!("ts{full}=999 sort{full}=36 ts{room}=1 sort{room}=100");
        let mut bench = Bench::running(&set);
        for _ in 0..8 {
            bench.weigh(1000, "outcome=3");
            bench.tick("", &on(&[room]));
        }
        bench.weigh(1000, "outcome=8 net=0 tallied=1");
        bench.tick("", "sorter=0");
        bench.foreign_pulse();
        bench.weigh(1000, "outcome=8 net=0");
        bench.tick("", "sorter=0");
        bench.weigh(950, "outcome=2 net=950");
        bench.tick("", &on(&[room]));
        bench.weigh(800, "outcome=1");
        bench.tick("", "sorter=0");
        bench.check("report=0", "total=12 ok=8 lo=1 lolo=1 foreign=0 crash=2");
    }
}

/// T-01: two-on enters those that hold fewer than 8, beside one that does not.
#[test]
fn two_on_enters_the_queues_with_room() {
    for (full, room) in pairs() {
        let set = format!("ta=3 ts{full}=60 sort{full}=34 ts{room}=2 sort{room}=2");
        let mut bench = Bench::running(&set);
        for _ in 0..8 {
            bench.tick("sensor=1", "detected=1");
            bench.ticks(2, "gross=1000", "outcome=0");
            bench.tick("gross=1000", "outcome=3");
        }
        bench.tick("sensor=1", "detected=1");
        bench.tick("sensor=0", "detected=0");
        bench.tick("sensor=1", "detected=1 outcome=7 net=0 tallied=1");
        bench.tick("", "sorter=0");
        bench.tick("", &on(&[room]));
        // The full queue's last wait had fallen three times on the tick of two-on; a ninth would end later.
        bench.ticks(54, "", "busy=1");
        bench.tick("", &format!("{} busy=1", on(&[full])));
        bench.tick("", "sorter=0 busy=0");
    }
}

/// T-01: each sorter has its own ts and to; bit k-1 of the reply's field is sorter k, and the field is 0
/// unless running.
#[test]
fn each_sorter_has_its_own_times_and_bit() {
    let (waits, times) = ([6, 1, 4, 2, 5, 3], [9, 2, 30, 7, 1, 5]);
    let fields = (0..6).map(|k| format!(" ts{0}={1} to{0}={2}", k + 1, waits[k], times[k]));
    let mut bench = Bench::running(&(each_sorter("sort", 32) + &fields.collect::<String>()));
    bench.weigh(1000, "outcome=3 sorter=0 busy=1");
    for tick in 1..=40 {
        let is_on = |k: &u32| {
            let k = *k as usize - 1;
            waits[k] <= tick && tick < waits[k] + times[k]
        };
        let sorters: Vec<u32> = (1..=6).filter(is_on).collect();
        bench.tick("", &format!("{} busy={}", on(&sorters), i64::from(tick < 34)));
    }
    let mut bench = Bench::running(&(each_sorter("sort", 32) + &each_sorter("to", 3)));
    bench.weigh(1000, "outcome=3 sorter=0");
    bench.tick("", "sorter=63");
    bench.check("CSTD", "status=2 sorter=0 busy=1");
    bench.ticks(9, "", "status=2 sorter=0 busy=1");
    bench.check("COPR", "status=1 sorter=63");
    bench.ticks(2, "", "sorter=63 busy=1");
    bench.tick("", "sorter=0 busy=0");
}

/// T-01: a queue or an on-time of any of the six is busy.
#[test]
fn any_sorter_makes_the_line_busy() {
    for k in 1..=6 {
        for ticks in 0..4 {
            let mut bench = Bench::running(&format!("ts{k}=2 to{k}=2 sort{k}=32"));
            bench.weigh(1000, "outcome=3 sorter=0 busy=1");
            bench.ticks(ticks, "", "busy=1");
            bench.check("CNOP", &if ticks < 2 { "sorter=0".into() } else { on(&[k]) });
            bench.check("CSTD", "status=2 busy=1 error=0 sorter=0");
        }
        let mut bench = Bench::running(&format!("ts{k}=2 to{k}=2 sort{k}=32"));
        bench.weigh(1000, "outcome=3");
        bench.ticks(3, "", "busy=1");
        bench.tick("", "busy=0 sorter=0");
        bench.check("CSTD", "status=0");
    }
}

/// T-01: stop and emergency empty all six queues and put all six sorters off.
#[test]
fn status_0_and_3_empty_all_six_sorters() {
    for end in ["CSTD", "CSTP", sample("emergency=1").as_str()] {
        let sorting = each_sorter("sort", 32) + &each_sorter("ts", 4) + &each_sorter("to", 99);
        let mut bench = Bench::running(&sorting);
        bench.weigh(1000, "outcome=3 busy=1");
        bench.ticks(3, "", "busy=1 sorter=0");
        bench.weigh(1000, "outcome=3 busy=1 sorter=63");
        if end == "CSTD" {
            bench.pause();
        }
        bench.check(end, "busy=0 sorter=0 outcome=0");
        bench.tick("", "status=0 busy=0");
        bench.check("COPR", "status=1 busy=0 sorter=0");
        bench.ticks(9, "", "busy=0 sorter=0");
    }
}

/// T-01: "Fresh, each has 100, 50 and 0."
#[test]
fn fresh_sorters() {
    let sorters = Bench::fresh().program.line.setup.sorters;
    assert_eq!(sorters.map(|set| (set.ts, set.to, set.sort)), [(100, 50, 0); 6]);
}

/// T-01: the setup line has the fields of six sorters, in their order; any line may be 300 bytes.
#[test]
fn the_setup_line_of_six_sorters() {
    let line = setup("");
    let mut bench = Bench::fresh();
    bench.check(&line, "status=0");
    let old = "mode=1 edge=1 tc=0 tw=0 ta=1 tf=0 ts=1 to=1 sort=0 stop=0 need=0";
    bench.check(old, "refused=1 input=0");
    let sorter = |k: u32| format!(" ts{k}=1 to{k}=1 sort{k}=0");
    for k in 1..=6 {
        bench.check(&line.replace(&sorter(k), ""), "refused=1");
        bench.check(&line.replace(&sorter(k), &sorter(k).repeat(2)), "refused=1");
        bench.check(&line.replace(&sorter(k), " ts=1 to=1 sort=0"), "refused=1");
        bench.check(&line.replace(&format!("ts{k}="), "ts="), "refused=1");
        bench.check(
            &line.replace(&format!("ts{k}=1 to{k}=1"), &format!("to{k}=1 ts{k}=1")),
            "refused=1",
        );
        for mask in [1, 3, 255] {
            bench.check(&setup(&format!("sort{k}={mask}")), "refused=2 input=0");
        }
    }
    bench.check(&line.replace(&sorter(6), &(sorter(6) + &sorter(7))), "refused=1");
    for line in [line, store(""), sample(""), "report=0".into()] {
        let long = line[..line.len() - 1].to_owned() + &"9".repeat(301 - line.len());
        assert_eq!(long.len(), 300);
        bench.check(&long, "refused=2");
        bench.check(&(long + "9"), "refused=1");
    }
}

/// T-05: "class 10 holds net from target - 5 to target + 5, classes 1 to 9 and 11 to 19 are 11 wide", at each border.
#[test]
fn borders_of_the_classes() {
    for target in [-999_999, -1000, -5, 0, 3, 1000, 999_999] {
        assert_eq!([-6, -5, 5, 6].map(|net| class(target + net, target)), [9, 10, 10, 11]);
        assert_eq!([-105, -104, 104, 105].map(|net| class(target + net, target)), [0, 1, 19, 20]);
        for k in 1..=20 {
            let lowest = target - 5 + 11 * (k as i64 - 10);
            assert_eq!(class(lowest, target), k);
            assert_eq!(class(lowest - 1, target), k - 1);
        }
        assert_eq!([-1_999_998, 1_999_998].map(|net| class(net, target)), [0, 20]);
    }
}

/// T-05: a verdict is in the class of the target at the verdict; a store between detection and verdict sets it.
#[test]
fn the_target_at_the_verdict() {
    let mut bench = Bench::running("tw=2");
    bench.tick("sensor=1", "detected=1");
    bench.pause();
    bench.check(&store("target=1005"), "status=2");
    bench.check("COPR", "status=1");
    bench.ticks(2, "", "outcome=0");
    bench.tick("gross=1000", "outcome=3");
    bench.check("report=0", "deviation=-5 class10=1 class9=0");
    bench.check("CSTD", "status=0");
    bench.check(&store("target=990"), "status=0");
    bench.check("report=0", "deviation=10 class10=1 class11=0");
}

/// T-05: cancel and both clears act on the class counts; an empty sheet prints zeros.
#[test]
fn cancel_and_clears_of_the_classes() {
    let mut bench = Bench::running("");
    bench.check("report=0", "sdp=none class0=0 class10=0 class20=0");
    bench.weigh(1000, "outcome=3");
    bench.weigh(994, "outcome=3");
    bench.check("report=0", "class9=1 class10=1");
    bench.check("CCAC", "status=1");
    bench.check("report=0", "class9=0 class10=1");
    bench.check("CDTL0001", "status=1");
    bench.check("report=0", "class10=1");
    for clear in ["CDTL0000", "CETL"] {
        bench.check(clear, "status=1");
        bench.check("report=0", "class10=0 total=0");
        bench.weigh(1000, "outcome=3");
    }
    bench.check("CCOD0001", "status=1");
    bench.check("report=1", "class10=0");
    bench.check("report=0", "class10=1");
}

/// T-05: only graded verdicts have a class.
#[test]
fn no_class_without_a_grade() {
    let mut bench = Bench::running("");
    bench.foreign_pulse();
    bench.weigh(1000, "outcome=6");
    let sheet = bench.say("report=0");
    let classes = sheet.lines().filter(|line| line.starts_with("class"));
    assert_eq!(classes.filter(|line| line.ends_with("=0")).count(), 21, "{sheet}");
}
