//! The eight verdicts, in mask order, and the grade.

use crate::event::Settings;

/// The number of a verdict is its outcome in the reply.
#[derive(Clone, Copy, Debug, PartialEq, Eq)]
pub enum Verdict {
    LoLo = 1,
    Lo = 2,
    Ok = 3,
    Hi = 4,
    HiHi = 5,
    Foreign = 6,
    TwoOn = 7,
    Crash = 8,
}

impl Verdict {
    pub fn grade(net: i64, settings: &Settings) -> Verdict {
        if net < settings.lolo {
            Verdict::LoLo
        } else if net < settings.lo {
            Verdict::Lo
        } else if net <= settings.hi {
            Verdict::Ok
        } else if net <= settings.hihi {
            Verdict::Hi
        } else {
            Verdict::HiHi
        }
    }

    pub fn is_graded(self) -> bool {
        self as u8 <= Verdict::HiHi as u8
    }

    /// Whether this verdict's bit is set in sort or stop: bit 7 is LoLo, bit 0 crash.
    pub fn is_in(self, mask: i64) -> bool {
        mask >> (8 - self as u8) & 1 == 1
    }

    /// The error of a line that this verdict's stop bit pauses.
    pub fn error(self) -> u8 {
        match self {
            Verdict::TwoOn => 2,
            Verdict::Foreign => 5,
            Verdict::Crash => 6,
            _ => 0,
        }
    }
}
