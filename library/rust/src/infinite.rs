//! A certified infinite quotient, or one that is presented, and what it is asked.

use crate::answers::{Answer, Outcome};
use crate::bounds::MOST_BYTES;
use crate::certificate::{Part, read_part};
use crate::finding::NotFound;
use crate::opened::{Infinite, Opened};
use crate::quotient::{USUAL, last_line, status_and_told, told_by};
use crate::raw;
use crate::refusal::Refusal;
use std::fmt;
use std::sync::Arc;

/// What is told of an infinite quotient, and of one that is presented. The numbers are those of the outputs of a finite one.
#[derive(Clone, Copy, Debug, PartialEq, Eq)]
pub enum InfiniteOutput {
    /// Lines for readers.
    Description = 0,
    /// The same for pdfLaTeX.
    Latex = 1,
    /// The same as one object of JSON, in one line.
    Json = 3,
}

/// A certified infinite misère quotient: the outcomes of all positions of a whole game, or of some of its heaps, which no finite quotient
/// predicts. One that generators and relations present may be finite: [`order`](InfiniteQuotient::order) says so. It is made by a check alone,
/// and doesn't change.
///
/// A game may have several texts, of other heaps. They never contradict each other. What is said of threads, clones and drops of a
/// [`Quotient`](crate::Quotient) holds of these.
#[derive(Clone)]
pub struct InfiniteQuotient {
    opened: Opened<Infinite>,
    bytes: Arc<[u8]>,
    part: Arc<Part>,
}

impl InfiniteQuotient {
    /// The infinite quotient that a text of a whole game is of, which begins with `mqw 1`; or the quotient that a presentation is, which
    /// begins with `mqp 1`.
    pub fn check(bytes: impl AsRef<[u8]>) -> Result<InfiniteQuotient, Refusal> {
        let bytes: Arc<[u8]> = bytes.as_ref().into();
        let opened = Opened::<Infinite>::check(&bytes)?;
        let part = read_part(&bytes).ok_or(Refusal::TEXT)?;
        Ok(InfiniteQuotient { opened, bytes, part: Arc::new(part) })
    }

    /// An infinite quotient of the game of a code, such as `0.26`: that of the whole game, if its text is found, or else that of some of the
    /// heaps 1 to `heaps`, by generators and relations; or why none was found. The heaps are 1 to 1024, and
    /// [`INFINITE_HEAPS`](crate::INFINITE_HEAPS) where nobody asks for more or less. Some searches take minutes.
    pub fn solve(code: &str, heaps: u32) -> Result<InfiniteQuotient, NotFound> {
        InfiniteQuotient::found(code, heaps, raw::misere_solve_infinite)
    }

    /// The same without a look for a text of the whole game.
    pub fn solve_presented(code: &str, heaps: u32) -> Result<InfiniteQuotient, NotFound> {
        InfiniteQuotient::found(code, heaps, raw::misere_solve_presented)
    }

    fn found(code: &str, heaps: u32, call: raw::SolveInfinite) -> Result<InfiniteQuotient, NotFound> {
        let (status, told) = status_and_told(MOST_BYTES, |told, count| {
            // SAFETY: each pointer stands with the length of its slice, and `count` is borrowed for the call.
            unsafe { call(code.as_ptr(), code.len(), heaps, told.as_mut_ptr(), told.len(), count) }
        });
        match Refusal(status) {
            Refusal(0) => Ok(InfiniteQuotient::check(told)?),
            Refusal::GAVE_UP => Err(NotFound::GaveUp { why: last_line(&told).trim_start_matches("gave up: ").to_owned() }),
            refusal => Err(NotFound::Refused(refusal)),
        }
    }

    /// A clone, or the refusal where memory is refused.
    pub fn try_clone(&self) -> Result<InfiniteQuotient, Refusal> {
        Ok(InfiniteQuotient { opened: self.opened.share()?, bytes: self.bytes.clone(), part: self.part.clone() })
    }

    /// The certificate.
    pub fn certificate(&self) -> &[u8] {
        &self.bytes
    }

    /// The game's code, such as `0.354`.
    pub fn code(&self) -> &str {
        &self.part.code
    }

    /// The last heap of which it speaks; none of a whole game, as it speaks of all.
    pub fn last_heap(&self) -> Option<u64> {
        self.part.last_heap
    }

    /// The heaps below the last one of which it doesn't speak, rising.
    pub fn without(&self) -> &[u64] {
        &self.part.without
    }

    /// How many elements a presented quotient has; none if it is infinite, as that of each whole game is.
    pub fn order(&self) -> Result<Option<u64>, Refusal> {
        Ok(Some(self.opened.order()?).filter(|order| *order > 0))
    }

    /// The element of a position by a presentation, as a word in its letters, such as `ab^2`, or `1`. Two positions are indistinguishable
    /// exactly if these are equal. By a text of a whole game it is refused, with 16.
    pub fn value(&self, heaps: &[u64]) -> Result<String, Refusal> {
        let text = told_by(USUAL, |told, count| self.opened.value(heaps, told, count))?;
        Ok(String::from_utf8_lossy(&text).into_owned())
    }

    /// The generators, relations, portion and words of a presentation. By a text of a whole game it is refused, with 16.
    pub fn describe(&self, output: InfiniteOutput) -> Result<String, Refusal> {
        let text = told_by(USUAL, |told, count| self.opened.describe(output as u32, told, count))?;
        Ok(String::from_utf8_lossy(&text).into_owned())
    }

    /// Who wins the position.
    pub fn outcome(&self, heaps: &[u64]) -> Result<Outcome, Refusal> {
        self.opened.outcome(heaps).map(Outcome::from)
    }

    /// What to do in the position.
    pub fn answer(&self, heaps: &[u64]) -> Result<Answer, Refusal> {
        Ok(Answer::from(&self.opened.answer(heaps)?))
    }

    /// The outcome of each position.
    pub fn outcomes(&self, positions: &[&[u64]]) -> Result<Vec<Outcome>, Refusal> {
        Ok(self.opened.outcomes(positions)?.into_iter().map(Outcome::from).collect())
    }

    /// What to do in each position.
    pub fn answers(&self, positions: &[&[u64]]) -> Result<Vec<Answer>, Refusal> {
        Ok(self.opened.answers(positions)?.iter().map(Answer::from).collect())
    }
}

impl PartialEq for InfiniteQuotient {
    fn eq(&self, other: &InfiniteQuotient) -> bool {
        self.certificate() == other.certificate()
    }
}

impl Eq for InfiniteQuotient {}

impl fmt::Debug for InfiniteQuotient {
    fn fmt(&self, f: &mut fmt::Formatter) -> fmt::Result {
        let (code, last_heap, without) = (self.code(), self.last_heap(), self.without());
        f.debug_struct("InfiniteQuotient").field("code", &code).field("last_heap", &last_heap).field("without", &without).finish()
    }
}

impl TryFrom<&[u8]> for InfiniteQuotient {
    type Error = Refusal;

    fn try_from(bytes: &[u8]) -> Result<InfiniteQuotient, Refusal> {
        InfiniteQuotient::check(bytes)
    }
}
