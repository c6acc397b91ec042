//! The bounds of the calls, of which each has its one place in Rust here. `scripts/calls_stand` compares them with the crates'.

/// What the closure of a check may keep, where nobody asks for more or less.
pub const LIMIT: u32 = 100_000;

/// How often a search guesses, where nobody asks for more or less.
pub(crate) const ROUNDS: u32 = 64;

/// How many heaps a search for a whole quotient looks at, where nobody asks for more or less.
pub(crate) const HEAPS: u32 = 24;

/// The most heaps that it looks at: the certificate of an octal code can need no more.
pub(crate) const MOST_HEAPS: u32 = 8210;

/// The most elements of a quotient that is sought, where nobody asks for more or less.
pub(crate) const ELEMENTS: u32 = 64;

/// The same of a deep search.
pub(crate) const MOST_BY_FEW: u32 = 256;

/// The last heap up to which a search for an infinite quotient goes, where nobody asks for more or less.
pub const INFINITE_HEAPS: u32 = 64;

/// As many bytes are room for any certificate.
pub(crate) const MOST_BYTES: usize = 1 << 22;

/// The largest heap.
pub(crate) const LARGEST_HEAP: u64 = 1_000_000_000_000_000_000;
