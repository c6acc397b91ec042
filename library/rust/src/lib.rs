//! Certified misère quotients of octal and hexadecimal games: safe Rust over libmisere, whose calls are proved.
//!
//! ```
//! use misere::{Answer, Bounds, Outcome, Quotient};
//!
//! let quotient = Quotient::solve("0.33", Bounds::default())?;
//! assert_eq!((quotient.order(), quotient.start(), quotient.period()), (6, 1, 3));
//! assert_eq!(quotient.outcome(&[2, 1_000_000_000_000])?, Outcome::N);
//! assert_eq!(quotient.answer(&[2, 1_000_000_000_000])?, Answer::Wins { heap: 2, left: vec![] });
//! # Ok::<(), Box<dyn std::error::Error>>(())
//! ```
//!
//! Where the library answers, its calls are proved: of every position of the game, of any number of heaps of 1 to 10^18 (of a
//! partial certificate: of its heaps). [`Quotient::phi`], [`Quotient::portion`] and [`Quotient::table`] are read off the certificate's
//! text, which a yes makes the misère quotient.
//!
//! [`InfiniteQuotient`] tells what texts of whole games and presentations say, whose quotients may be infinite.
//!
//! The certificate is checked once, and the library keeps the quotient until its last clone is dropped. A [`Quotient`] is sent from thread
//! to thread, and each thread that asks at the same time has a clone.

#![warn(missing_docs)]

mod answers;
mod bounds;
mod certificate;
mod finding;
mod infinite;
mod opened;
mod own;
mod quotient;
mod raw;
mod refusal;

pub use answers::{Answer, Outcome};
pub use bounds::{INFINITE_HEAPS, LIMIT};
pub use finding::{Aim, Bounds, NotFound};
pub use infinite::{InfiniteOutput, InfiniteQuotient};
pub use own::{NotCertified, OwnTable};
pub use quotient::{Output, Quotient};
pub use refusal::Refusal;

/// Room for most positions at which the rule fails.
const USUAL_HEAPS: usize = 64;

/// The version of the library's calls.
pub fn version() -> u32 {
    // SAFETY: it takes nothing.
    unsafe { raw::misere_version() }
}

/// The heaps of a position at which the rule of the code's game fails, if the bytes are refused for that.
pub fn failure(bytes: &[u8], limit: u32) -> Option<Vec<u64>> {
    // SAFETY: each pointer stands with the length of its slice, and `count` is borrowed for the call.
    failing(|told, count| unsafe { raw::misere_failure(bytes.as_ptr(), bytes.len(), limit, told.as_mut_ptr(), told.len(), count) })
}

/// The same of a text of a whole game, or of a presentation.
pub fn infinite_failure(bytes: &[u8]) -> Option<Vec<u64>> {
    // SAFETY: as above.
    failing(|told, count| unsafe { raw::misere_infinite_failure(bytes.as_ptr(), bytes.len(), told.as_mut_ptr(), told.len(), count) })
}

fn failing(call: impl Fn(&mut [u64], &mut u64) -> u32) -> Option<Vec<u64>> {
    let mut told = vec![0; USUAL_HEAPS];
    loop {
        let (room, mut count) = (told.len(), 0);
        if Refusal(call(&mut told, &mut count)) != Refusal::OUTCOME {
            return None;
        }
        told.resize(count as usize, 0);
        if told.len() <= room {
            return Some(told);
        }
    }
}
