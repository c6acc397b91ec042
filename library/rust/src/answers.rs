//! What is answered of positions.

use crate::raw;

/// Who wins a position under misère play.
#[derive(Clone, Copy, Debug, PartialEq, Eq, Hash)]
pub enum Outcome {
    /// The player who has just moved.
    P,
    /// The next one.
    N,
}

/// What to do in a position.
#[derive(Clone, Debug, PartialEq, Eq, Hash)]
pub enum Answer {
    /// There is no move.
    Ended,
    /// Each move loses.
    Lost,
    /// The first winning move.
    Wins {
        /// The heap that it takes.
        heap: u64,
        /// The heaps that it leaves of it, rising.
        left: Vec<u64>,
    },
}

impl From<u32> for Outcome {
    fn from(told: u32) -> Outcome {
        if told == 0 { Outcome::P } else { Outcome::N }
    }
}

impl From<&raw::Told> for Answer {
    fn from(told: &raw::Told) -> Answer {
        let left = [told.first, told.second, told.third].into_iter().filter(|part| *part > 0).collect();
        match told.kind {
            0 => Answer::Ended,
            1 => Answer::Lost,
            _ => Answer::Wins { heap: told.heap, left },
        }
    }
}
