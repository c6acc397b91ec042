//! Why a call told nothing.

use std::fmt;

/// Why a call told nothing. 1 to 9 are the checker's refusals, and 31 to 34 those of whole games and presentations beside these.
#[derive(Clone, Copy, Debug, PartialEq, Eq)]
pub struct Refusal(pub u32);

impl Refusal {
    /// The bytes spell no certificate.
    pub const TEXT: Refusal = Refusal(1);
    /// The rule of the code's game fails at a position: [`failure`](crate::failure) tells it, or
    /// [`infinite_failure`](crate::infinite_failure).
    pub const OUTCOME: Refusal = Refusal(7);
    /// A heap is not of 1 to 10^18.
    pub const NOT_A_HEAP: Refusal = Refusal(10);
    /// No certificate was found.
    pub const GAVE_UP: Refusal = Refusal(13);
    /// There is no room for a text.
    pub(crate) const NO_ROOM: Refusal = Refusal(14);
    /// The certificate does not speak of all the heaps.
    pub const BEYOND: Refusal = Refusal(23);

    /// The refusal's name, as the program prints it.
    pub fn name(self) -> &'static str {
        match self.0 {
            1 => "Text",
            2 => "Law",
            3 => "Word",
            4 => "Order",
            5 => "Period",
            6 => "Apart",
            7 => "Outcome",
            8 => "Limit",
            9 => "Memory",
            10 => "NotAHeap",
            11 => "NotEnds",
            12 => "NotACode",
            13 => "GaveUp",
            14 => "NoRoom",
            15 => "NotInRange",
            16 => "NotDescribed",
            17 => "NotOpen",
            23 => "Beyond",
            31 => "Part",
            33 => "Undecided",
            34 => "Finite",
            _ => "Unknown",
        }
    }
}

impl fmt::Display for Refusal {
    fn fmt(&self, f: &mut fmt::Formatter) -> fmt::Result {
        write!(f, "{} {}", self.0, self.name())
    }
}

impl std::error::Error for Refusal {}

/// What was told, if the status is a yes.
pub(crate) fn done<T>(status: u32, told: T) -> Result<T, Refusal> {
    if status == 0 { Ok(told) } else { Err(Refusal(status)) }
}
