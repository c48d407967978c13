//! Random numbers from a seed (splitmix64).

pub struct Random {
    state: u64,
}

impl Random {
    pub fn new(seed: u64) -> Random {
        Random { state: seed }
    }

    fn next(&mut self) -> u64 {
        self.state = self.state.wrapping_add(0x9e37_79b9_7f4a_7c15);
        let mut z = self.state;
        z = (z ^ (z >> 30)).wrapping_mul(0xbf58_476d_1ce4_e5b9);
        z = (z ^ (z >> 27)).wrapping_mul(0x94d0_49bb_1331_11eb);
        z ^ (z >> 31)
    }

    /// A number from low to high, both included.
    pub fn between(&mut self, low: i64, high: i64) -> i64 {
        low + (self.next() % (high - low + 1) as u64) as i64
    }

    /// A place in something of this length.
    pub fn below(&mut self, length: usize) -> usize {
        self.between(0, length as i64 - 1) as usize
    }

    /// True so many times in a thousand.
    pub fn chance(&mut self, per_thousand: i64) -> bool {
        self.between(0, 999) < per_thousand
    }

    pub fn pick<T: Copy>(&mut self, choices: &[T]) -> T {
        choices[self.below(choices.len())]
    }

    /// One of the choices, each as often as its weight says.
    pub fn weighted<T: Copy>(&mut self, choices: &[(i64, T)]) -> T {
        let mut left = self.between(1, choices.iter().map(|choice| choice.0).sum());
        for &(weight, choice) in choices {
            left -= weight;
            if left <= 0 {
                return choice;
            }
        }
        unreachable!("the weights add up to the whole")
    }
}
