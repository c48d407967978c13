//! The bench marks.

use crate::bench::{store, Bench};
use reference::tally::nearest;

#[test]
fn grades_at_the_limits() {
    let mut bench = Bench::running("");
    let nets = [899, 900, 989, 990, 1010, 1011, 1100, 1101];
    let outcomes = [1, 2, 2, 3, 3, 4, 4, 5];
    for (net, outcome) in nets.into_iter().zip(outcomes) {
        bench.weigh(net, &format!("outcome={outcome} net={net} tallied=1"));
    }
    bench.check("report=0", "total=8 ng=6 lolo=1 lo=2 ok=2 hi=2 hihi=1 max=1101 min=899");
}

#[test]
fn halves_are_rounded_away_from_zero() {
    assert_eq!((nearest(2007, 2), nearest(-2007, 2)), (1004, -1004));
    assert_eq!((nearest(2006, 2), nearest(-2006, 2)), (1003, -1003));
    assert_eq!((nearest(4, 3), nearest(5, 3), nearest(-4, 3), nearest(-5, 3)), (1, 2, -1, -2));
}

#[test]
fn a_negative_mean_is_rounded_away_from_zero() {
    let mut bench = Bench::fresh();
    bench.check(&crate::bench::setup(""), "status=0");
    bench.check(&store("target=0 lolo=-9000 lo=-9000 hi=0 hihi=0 tare=5000"), "status=0");
    bench.check("COPR", "status=1");
    bench.weigh(3997, "outcome=3 net=-1003");
    bench.weigh(3996, "outcome=3 net=-1004");
    bench.check("report=0", "sum=-2007 mean=-1004 deviation=-1004 max=-1003 min=-1004");
}

#[test]
fn spread_of_1_2_4() {
    let mut bench = Bench::fresh();
    bench.check(&crate::bench::setup(""), "status=0");
    bench.check("COPR", "status=1");
    for weight in [1, 2, 4] {
        bench.weigh(weight, "outcome=5");
    }
    bench.check("report=0", "sum=7 mean=2 deviation=2 sd=1.5 sdp=1.2 max=4 min=1");
}
