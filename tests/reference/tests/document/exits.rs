//! 02, T-13: the exit eye against the verdicts.

use reference::exits::{check, expected, Call, Expected};

fn most(verdicts: &[u64], signals: &[u64], a: u64, b: u64) -> usize {
    Call { verdicts: verdicts.to_vec(), signals: signals.to_vec(), a, b }.most_pairs()
}

fn refusal(input: &str) -> Option<u64> {
    match expected(input.as_bytes()).as_slice() {
        [Expected::Refused(number)] => Some(*number),
        _ => None,
    }
}

#[test]
fn both_ends_of_the_window_are_in_it() {
    assert_eq!(most(&[100], &[103], 3, 7), 1);
    assert_eq!(most(&[100], &[107], 3, 7), 1);
    assert_eq!(most(&[100], &[102, 108], 3, 7), 0);
}

#[test]
fn a_late_signal_for_an_early_verdict_would_cost_a_pair() {
    assert_eq!(most(&[10, 12], &[13, 15], 1, 5), 2);
    assert_eq!(most(&[10, 11, 12, 13], &[12, 13, 14, 15], 1, 3), 4);
}

/// Every way to pair few entries, one by one.
fn by_trial(verdicts: &[u64], signals: &[u64], a: u64, b: u64) -> usize {
    let [first, rest @ ..] = verdicts else {
        return 0;
    };
    let mut most = by_trial(rest, signals, a, b);
    for (place, signal) in signals.iter().enumerate() {
        if first + a <= *signal && *signal <= first + b {
            let mut others = signals.to_vec();
            others.remove(place);
            most = most.max(1 + by_trial(rest, &others, a, b));
        }
    }
    most
}

#[test]
fn no_way_to_pair_few_entries_has_more_pairs() {
    let lists: Vec<Vec<u64>> = (0..32u64)
        .map(|set| (0..5).filter(|bit| set >> bit & 1 == 1).map(|bit| 2 * bit).collect())
        .collect();
    for verdicts in &lists {
        for signals in &lists {
            for (a, b) in [(0, 0), (0, 2), (1, 3), (2, 2), (0, 5), (3, 9)] {
                assert_eq!(most(verdicts, signals, a, b), by_trial(verdicts, signals, a, b));
            }
        }
    }
}

#[test]
fn refusals_come_in_their_order() {
    let late = "verdict=1000000001\n";
    let falling = "signal=5\nsignal=5\n";
    assert_eq!(refusal(&format!("a=-1 b=0\n{late}{falling}")), Some(16));
    assert_eq!(refusal(&format!("a=-1 b=0\n{late}signal=5\n")), Some(2));
    assert_eq!(refusal("a=-1 b=0\n"), Some(17));
    assert_eq!(refusal("a=0 b=10000\n"), Some(17));
    assert_eq!(refusal(&format!("a=0 b=0\n{falling}verdict=18446744073709551616\n")), Some(2));
    assert_eq!(refusal(&format!("a=0 b=0\n{falling}verdict=18446744073709551615\n")), Some(16));
    assert_eq!(refusal("verdict=1\n"), Some(1));
}

#[test]
fn what_is_no_largest_pairing_is_seen() {
    let input = b"a=1 b=5\nverdict=10\nverdict=12\nsignal=13\nsignal=15\n";
    let counts = "pairs=2 missing=0 extra=0\n";
    let good = format!("verdict=10 signal=13\nverdict=12 signal=15\n{counts}");
    assert_eq!(check(input, &good), Ok(1));
    assert_eq!(
        check(input, &format!("verdict=10 signal=15\nverdict=12 signal=13\n{counts}")),
        Ok(1)
    );
    for wrong in [
        "verdict=12 signal=15\nverdict=10 signal=13\n",
        "verdict=10 signal=13\nverdict=12 signal=13\n",
        "verdict=10 signal=13\nverdict=12 signal=16\n",
        "verdict=10 signal=13\n",
    ] {
        assert!(check(input, &format!("{wrong}{counts}")).is_err());
    }
    assert!(check(input, "verdict=10 signal=15\npairs=1 missing=1 extra=1\n").is_err());
    assert!(check(input, &format!("{good}refused=1 input=0\n")).is_err());
}
