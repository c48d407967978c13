//! The foreign signals on their way from the detector to the scale.

#[derive(Clone, Debug, Default, PartialEq, Eq)]
pub struct Foreign {
    /// The delay left of each, in the order in which they came; at 0 it has ended.
    signals: Vec<i64>,
}

impl Foreign {
    /// The most signals carried, ended ones included.
    pub const MOST: usize = 8;

    /// Step 5 of a sample: all delays fall, then a change starts one of tf.
    /// False when the change finds as many carried as can be: it is not carried.
    pub fn tick(&mut self, change: bool, tf: i64) -> bool {
        for left in &mut self.signals {
            *left = (*left - 1).max(0);
        }
        if !change {
            return true;
        }
        let room = !self.is_full();
        if room {
            self.signals.push(tf);
        }
        room
    }

    pub fn is_full(&self) -> bool {
        self.signals.len() == Foreign::MOST
    }

    /// Uses up the oldest signal that has ended. False when none has.
    pub fn use_up(&mut self) -> bool {
        let oldest = self.signals.iter().position(|&left| left == 0);
        oldest.map(|place| self.signals.remove(place)).is_some()
    }
}
