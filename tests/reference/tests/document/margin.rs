//! 02, T-12: samples known within a margin.

use reference::event::Settings;
use reference::margin::{outcome, possible, printed};

const LIMITS: Settings =
    Settings { target: 1000, lolo: 900, lo: 990, hi: 1010, hihi: 1100, nearzero: 100, tare: 0 };

const STORE: &str = "code=0 target=1000 lolo=900 lo=990 hi=1010 hihi=1100 nearzero=100 tare=0\n";

/// The outcomes' numbers.
fn set(samples: &[i64], e: i64, settings: &Settings) -> Vec<usize> {
    let answer = possible(samples, e, settings).expect("accepted");
    (0..10).filter(|&outcome| answer[outcome]).collect()
}

/// Every choice of samples, one by one.
fn by_trial(samples: &[i64], e: i64, settings: &Settings) -> Vec<usize> {
    let mut choices = vec![0];
    for x in samples {
        let near = (x - e).max(-999_999)..=(x + e).min(999_999);
        choices = choices.iter().flat_map(|sum| near.clone().map(move |y| sum + y)).collect();
    }
    let mut found: Vec<usize> =
        choices.iter().map(|sum| outcome(*sum, samples.len() as i64, settings)).collect();
    found.sort_unstable();
    found.dedup();
    found
}

#[test]
fn no_choice_of_samples_has_another_outcome() {
    let narrow = Settings { target: 5, lolo: 3, lo: 3, hi: 5, hihi: 6, nearzero: 1, tare: 1 };
    let top = Settings {
        target: 999_997,
        lolo: 999_996,
        lo: 999_997,
        hi: 999_998,
        hihi: 999_998,
        nearzero: 0,
        tare: 0,
    };
    for (settings, from) in [(narrow, -2), (top, 999_990), (LIMITS, 985)] {
        for x in from..from + 12 {
            for y in from..from + 12 {
                for e in 0..4 {
                    let list = [x.min(999_999), y.min(999_999), x.min(999_999)];
                    for count in 1..=3 {
                        let few = &list[..count];
                        assert_eq!(set(few, e, &settings), by_trial(few, e, &settings));
                    }
                }
            }
        }
    }
}

#[test]
fn without_a_margin_there_is_one_outcome() {
    for (gross, is) in [
        (899, 1),
        (900, 2),
        (989, 2),
        (990, 3),
        (1010, 3),
        (1011, 4),
        (1100, 4),
        (1101, 5),
        (100, 9),
    ] {
        assert_eq!(set(&[gross], 0, &LIMITS), [is]);
    }
}

#[test]
fn samples_are_cut_at_the_ends_of_the_weights() {
    let top = Settings {
        target: 999_999,
        lolo: 0,
        lo: 0,
        hi: 999_999,
        hihi: 999_999,
        nearzero: 0,
        tare: 0,
    };
    assert_eq!(set(&[999_999], 1000, &top), [3]);
    let bottom =
        Settings { target: 0, lolo: -999_999, lo: -999_999, hi: 0, hihi: 0, nearzero: 0, tare: 0 };
    assert_eq!(set(&[-999_999, -999_999], 1000, &bottom), [9]);
}

#[test]
fn refusals_come_in_their_order() {
    let wrong = Settings { lolo: 991, ..LIMITS };
    assert_eq!(possible(&[], 1001, &wrong), Err(15));
    assert_eq!(possible(&[0; 10_000], 1001, &wrong), Err(15));
    assert_eq!(possible(&[1_000_000], 0, &wrong), Err(2));
    assert_eq!(possible(&[0], 1001, &wrong), Err(2));
    assert_eq!(possible(&[0], -1, &wrong), Err(2));
    assert_eq!(possible(&[0], 0, &Settings { tare: -1, ..wrong }), Err(2));
    assert_eq!(possible(&[0; 9_999], 1000, &wrong), Err(4));
}

#[test]
fn a_call_is_its_margin_its_settings_and_its_samples() {
    let call = format!("e=15\n{STORE}gross=1003\ngross=1004\n");
    assert_eq!(printed(call.as_bytes()), "outcomes=lo,ok,hi\n");
    assert_eq!(
        printed(format!("{call}{call}").as_bytes()),
        "outcomes=lo,ok,hi\noutcomes=lo,ok,hi\n"
    );
    assert_eq!(printed(b"e=0\n"), "refused=15 input=0\n");
    assert_eq!(printed(format!("e=0\n{STORE}").as_bytes()), "refused=15 input=0\n");
    assert_eq!(printed(format!("gross=1\n{STORE}").as_bytes()), "refused=1 input=0\n".repeat(2));
    assert_eq!(
        printed(format!("e=0\ngross=1\n{STORE}{STORE}gross=1\n").as_bytes()),
        "refused=1 input=0\nrefused=1 input=0\noutcomes=dismissed\n"
    );
    let hundred = STORE.replace("code=0", "code=100");
    assert_eq!(printed(format!("e=0\n{hundred}gross=1\n").as_bytes()), "refused=2 input=0\n");
    assert_eq!(printed(format!("e=0\n{hundred}").as_bytes()), "refused=15 input=0\n");
    assert_eq!(printed(b""), "");
}
