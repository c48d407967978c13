//! Refusal numbers of the manual's kind.

#[derive(Clone, Copy, Debug, PartialEq, Eq)]
pub struct Refusal {
    pub number: u8,
    /// The lowest required input that is off; 0 but for safety.
    pub input: u8,
}

impl Refusal {
    pub const FORM: Refusal = Refusal::numbered(1);
    pub const VALUE: Refusal = Refusal::numbered(2);
    pub const STATUS: Refusal = Refusal::numbered(3);
    pub const EMERGENCY: Refusal = Refusal::numbered(9);
    pub const PAUSED: Refusal = Refusal::numbered(10);
    pub const CONTRADICTION: Refusal = Refusal::numbered(4);
    pub const OCCUPIED: Refusal = Refusal::numbered(6);
    pub const NOTHING: Refusal = Refusal::numbered(7);

    const fn numbered(number: u8) -> Refusal {
        Refusal { number, input: 0 }
    }

    /// Refusal 5 for the required inputs that are off; input k is bit k-1.
    pub fn safety(off: i64) -> Refusal {
        Refusal { number: 5, input: off.trailing_zeros() as u8 + 1 }
    }
}
