//! How far a search for a quotient goes.

use crate::bounds::{ELEMENTS, HEAPS, LIMIT, MOST_BY_FEW, MOST_HEAPS, ROUNDS};
use crate::refusal::Refusal;
use std::fmt;

/// Of which heaps a search is to find the quotient.
#[derive(Clone, Copy, Debug, PartialEq, Eq)]
pub enum Aim {
    /// Of all heaps; those up to this one are looked at, 2 to 8210.
    Whole(u32),
    /// Of the heaps 1 to this one, 1 to 1024.
    Part(u32),
    /// Of the most first heaps that have so few elements as are allowed.
    Furthest,
}

impl Aim {
    /// Of all heaps, by as many as the certificate of an octal code can need.
    pub const DEEP: Aim = Aim::Whole(MOST_HEAPS);
}

/// How far a search goes.
#[derive(Clone, Copy, Debug)]
pub struct Bounds {
    /// What the closure of each check may keep, 1 to 1000000.
    pub limit: u32,
    /// How often the proposers are asked at most, 1 to 1000.
    pub rounds: u32,
    /// Of which heaps the quotient is.
    pub aim: Aim,
    /// The most elements of a quotient, 2 to 4096, or to 256 of all heaps by at most 64.
    pub order: u32,
}

impl Bounds {
    /// Those of `misere solve CODE --deep`: of all heaps, by as many as can be needed, with at most 256 elements.
    pub const DEEP: Bounds = Bounds { limit: LIMIT, rounds: ROUNDS, aim: Aim::DEEP, order: MOST_BY_FEW };
}

impl Default for Bounds {
    fn default() -> Bounds {
        Bounds { limit: LIMIT, rounds: ROUNDS, aim: Aim::Whole(HEAPS), order: ELEMENTS }
    }
}

/// Why a search told no quotient.
#[derive(Clone, Debug, PartialEq, Eq)]
pub enum NotFound {
    /// The search was given up, for this reason, as `misere solve CODE --why` prints it: `no period 24 24`, `too large 15`, `rounds`
    /// and others; or as `misere solve CODE --infinite` does: `each part to heap 64 seems to have a finite quotient`.
    GaveUp {
        /// The reason's line.
        why: String,
    },
    /// There was no search, or memory was refused.
    Refused(Refusal),
}

impl From<Refusal> for NotFound {
    fn from(refusal: Refusal) -> NotFound {
        NotFound::Refused(refusal)
    }
}

impl fmt::Display for NotFound {
    fn fmt(&self, f: &mut fmt::Formatter) -> fmt::Result {
        match self {
            NotFound::GaveUp { why } => write!(f, "{}: {why}", Refusal::GAVE_UP),
            NotFound::Refused(refusal) => refusal.fmt(f),
        }
    }
}

impl std::error::Error for NotFound {}
