//! A line on the bench: says text lines to it and looks at the answers.

use reference::stream::Program;

const SETUP: &str = "mode=1 edge=1 tc=0 tw=0 ta=1 tf=0 ts1=1 to1=1 sort1=0 \
    ts2=1 to2=1 sort2=0 ts3=1 to3=1 sort3=0 ts4=1 to4=1 sort4=0 \
    ts5=1 to5=1 sort5=0 ts6=1 to6=1 sort6=0 stop=0 need=0";
const STORE: &str = "code=0 target=1000 lolo=900 lo=990 hi=1010 hihi=1100 nearzero=100 tare=0";
const SAMPLE: &str = "sensor=0 emergency=0 safety=255 foreign=0 gross=0";

/// The setup of these tests with the given fields changed: a box is detected
/// on the sensor's rise and weighed on the next tick. Without a sorter's number
/// `ts=`, `to=` and `sort=` are those of sorter 1.
pub fn setup(changes: &str) -> String {
    let numbered = |change: &str| match change.split_once('=') {
        Some((key @ ("ts" | "to" | "sort"), value)) => format!("{key}1={value} "),
        _ => format!("{change} "),
    };
    changed(SETUP, &changes.split_whitespace().map(numbered).collect::<String>())
}

pub fn store(changes: &str) -> String {
    changed(STORE, changes)
}

pub fn sample(changes: &str) -> String {
    changed(SAMPLE, changes)
}

fn changed(text: &str, changes: &str) -> String {
    let mut fields: Vec<&str> = text.split(' ').collect();
    for change in changes.split_whitespace() {
        let key = &change[..=change.find('=').expect("a field")];
        let field = fields.iter_mut().find(|field| field.starts_with(key));
        *field.expect("a known key") = change;
    }
    fields.join(" ")
}

pub struct Bench {
    pub program: Program,
}

impl Bench {
    pub fn fresh() -> Bench {
        Bench { program: Program::fresh() }
    }

    /// A running line with this setup and the example's limits.
    pub fn running(changes: &str) -> Bench {
        let mut bench = Bench::stopped(changes);
        bench.check("COPR", "status=1");
        bench
    }

    /// The same line before it runs.
    pub fn stopped(changes: &str) -> Bench {
        let mut bench = Bench::fresh();
        bench.check(&setup(changes), "status=0");
        bench.check(&store(""), "status=0");
        bench
    }

    /// The answer to one text line.
    pub fn say(&mut self, text: &str) -> String {
        let mut out = Vec::new();
        self.program.answer(text.as_bytes(), &mut out);
        String::from_utf8(out).expect("answers are ASCII")
    }

    /// Says a line whose answer must have these fields.
    #[track_caller]
    pub fn check(&mut self, text: &str, wanted: &str) {
        let answer = self.say(text);
        for field in wanted.split(' ') {
            let found = answer.split_whitespace().any(|given| given == field);
            assert!(found, "{text}: wanted {field}, got {answer}");
        }
    }

    #[track_caller]
    pub fn tick(&mut self, changes: &str, wanted: &str) {
        self.check(&sample(changes), wanted);
    }

    #[track_caller]
    pub fn ticks(&mut self, count: usize, changes: &str, wanted: &str) {
        for _ in 0..count {
            self.tick(changes, wanted);
        }
    }

    /// One box over two ticks, detected on the first and weighed on the second.
    #[track_caller]
    pub fn weigh(&mut self, gross: i64, wanted: &str) {
        self.tick("sensor=1", "detected=1 outcome=0");
        self.tick(&format!("gross={gross}"), wanted);
    }

    /// A foreign pulse on two ticks without a box.
    #[track_caller]
    pub fn foreign_pulse(&mut self) {
        self.tick("foreign=1", "outcome=0");
        self.tick("foreign=0", "outcome=0");
    }

    /// Pauses a line that is busy.
    #[track_caller]
    pub fn pause(&mut self) {
        self.check("CSTD", "status=2 error=0");
    }
}
