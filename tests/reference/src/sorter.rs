//! One sorter: a queue of waits and the on-time.

#[derive(Clone, Copy, Debug, Default, PartialEq, Eq)]
pub struct Sorter {
    /// The first `queued` places hold the waits, each above 0.
    waits: [i64; Sorter::PLACES],
    queued: usize,
    /// The sorter is on while this is above 0.
    on_time: i64,
}

impl Sorter {
    /// The most waits the queue holds.
    pub const PLACES: usize = 8;

    pub fn is_full(&self) -> bool {
        self.queued == Sorter::PLACES
    }

    pub fn is_on(&self) -> bool {
        self.on_time > 0
    }

    /// A wait is queued or the sorter is on.
    pub fn is_busy(&self) -> bool {
        self.queued > 0 || self.is_on()
    }

    /// Queues a wait, if fewer than 8 wait.
    pub fn queue(&mut self, wait: i64) {
        if !self.is_full() {
            self.waits[self.queued] = wait;
            self.queued += 1;
        }
    }

    /// Step 4 of a sample: the on-time falls, then each wait; a wait that
    /// reaches 0 leaves and the on-time becomes `to`.
    pub fn tick(&mut self, to: i64) {
        if self.on_time > 0 {
            self.on_time -= 1;
        }
        let mut staying = 0;
        for place in 0..self.queued {
            let wait = self.waits[place] - 1;
            if wait == 0 {
                self.on_time = to;
            } else {
                self.waits[staying] = wait;
                staying += 1;
            }
        }
        self.queued = staying;
    }
}

#[cfg(test)]
mod tests {
    use super::*;

    #[test]
    fn several_waits_that_reach_0_on_one_tick_all_leave() {
        let mut sorter = Sorter::default();
        for wait in [1, 2, 1, 1] {
            sorter.queue(wait);
        }
        sorter.tick(5);
        assert_eq!((sorter.queued, sorter.waits[0], sorter.on_time), (1, 1, 5));
    }
}
