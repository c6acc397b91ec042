//! A certified quotient, and what it is asked.

use crate::answers::{Answer, Outcome};
use crate::bounds::{LARGEST_HEAP, LIMIT, MOST_BYTES};
use crate::certificate::{Certificate, read};
use crate::finding::{Aim, Bounds, NotFound};
use crate::opened::{Finite, Opened};
use crate::own::NotCertified;
use crate::raw;
use crate::refusal::{Refusal, done};
use std::fmt;
use std::sync::Arc;

/// As many bytes are room for most descriptions.
pub(crate) const USUAL: usize = 1 << 16;

/// What is told of a quotient: what `misere describe` prints, without and with the word of this name. The library numbers them in this
/// order.
#[derive(Clone, Copy, Debug, PartialEq, Eq)]
pub enum Output {
    /// Generators and relations, portion, invariants and heaps, in lines.
    Description,
    /// The same for pdfLaTeX.
    Latex,
    /// The relations as one word.
    Relations,
    /// All of the description as one object of JSON, in one line.
    Json,
    /// Commands of Singular that make the ideal of the relations.
    Singular,
    /// The same for GAP.
    Gap,
}

/// A certified misère quotient. It is made by a check alone, and doesn't change.
///
/// The library checks the certificate once, and keeps what it certifies as long as there is the quotient or a clone of it. One
/// thread at a time asks it: each other thread is sent a clone, by which nothing is checked or copied.
///
/// ```compile_fail
/// fn is_shared<T: Sync>() {}
/// is_shared::<misere::Quotient>();
/// ```
#[derive(Clone)]
pub struct Quotient {
    opened: Opened<Finite>,
    bytes: Arc<[u8]>,
    certificate: Arc<Certificate>,
}

impl Quotient {
    /// The quotient that the certificate is of. [`LIMIT`] is the limit where nobody asks for more or less.
    pub fn check(bytes: impl AsRef<[u8]>, limit: u32) -> Result<Quotient, Refusal> {
        let bytes: Arc<[u8]> = bytes.as_ref().into();
        let opened = Opened::<Finite>::check(&bytes, limit)?;
        let certificate = read(&bytes).ok_or(Refusal::TEXT)?;
        Ok(Quotient { opened, bytes, certificate: Arc::new(certificate) })
    }

    /// A clone, or the refusal where memory is refused.
    pub fn try_clone(&self) -> Result<Quotient, Refusal> {
        Ok(Quotient { opened: self.opened.share()?, bytes: self.bytes.clone(), certificate: self.certificate.clone() })
    }

    /// The quotient of the game of a code, such as `0.33`, or of a part of it; or why none was found.
    pub fn solve(code: &str, bounds: Bounds) -> Result<Quotient, NotFound> {
        let Bounds { limit, rounds, aim, order } = bounds;
        let (aim, heaps) = match aim {
            Aim::Whole(heaps) => (0, heaps),
            Aim::Part(last) => (1, last),
            Aim::Furthest => (2, 0),
        };
        let (status, told) = status_and_told(MOST_BYTES, |told, count| {
            // SAFETY: each pointer stands with the length of its slice, and `count` is borrowed for the call.
            unsafe { raw::misere_solve_why(code.as_ptr(), code.len(), limit, rounds, aim, heaps, order, told.as_mut_ptr(), told.len(), count) }
        });
        match Refusal(status) {
            Refusal(0) => Ok(Quotient::check(told, limit)?),
            Refusal::GAVE_UP => Err(NotFound::GaveUp { why: last_line(&told) }),
            refusal => Err(NotFound::Refused(refusal)),
        }
    }

    /// The quotient of a table in any numbering of its elements, of which this is the text that `misere certify` reads: an
    /// [`OwnTable`](crate::OwnTable) displays it. Or it says what is wrong with the table, in its own numbering.
    pub fn certify(table: impl AsRef<[u8]>, limit: u32) -> Result<Quotient, NotCertified> {
        let table = table.as_ref();
        let (status, told) = status_and_told(MOST_BYTES, |told, count| {
            // SAFETY: each pointer stands with the length of its slice, and `count` is borrowed for the call.
            unsafe { raw::misere_certify(table.as_ptr(), table.len(), limit, told.as_mut_ptr(), told.len(), count) }
        });
        if status == 0 {
            return Ok(Quotient::check(told, limit)?);
        }
        Err(NotCertified { refusal: Refusal(status), lines: String::from_utf8_lossy(&told).into_owned() })
    }

    /// The certificate: the one accepted text of its code and kind.
    pub fn certificate(&self) -> &[u8] {
        &self.bytes
    }

    /// The game's code, such as `0.33`.
    pub fn code(&self) -> &str {
        &self.certificate.code
    }

    /// How many elements there are: 0, which is the identity, to one less than the order.
    pub fn order(&self) -> usize {
        self.certificate.order
    }

    /// From which heap on the elements repeat; of a partial quotient the heap behind the last one.
    pub fn start(&self) -> u64 {
        self.certificate.start
    }

    /// The period with which the elements of the heaps repeat; 0 of a partial quotient.
    pub fn period(&self) -> u64 {
        self.certificate.period
    }

    /// The last heap of which a partial certificate speaks. A full one speaks of all.
    pub fn last_heap(&self) -> Option<u64> {
        (self.period() == 0).then(|| self.start() - 1)
    }

    /// The element of a heap.
    pub fn phi(&self, heap: u64) -> Result<u32, Refusal> {
        let (start, period) = (self.start(), self.period());
        if !(1..=LARGEST_HEAP).contains(&heap) {
            return Err(Refusal::NOT_A_HEAP);
        }
        let shown = if heap < start + period { heap } else { start + (heap - start).checked_rem(period).ok_or(Refusal::BEYOND)? };
        Ok(self.certificate.phi[shown as usize - 1])
    }

    /// The elements of the P-portion, rising: those of the positions that the player who has just moved wins.
    pub fn portion(&self) -> &[u32] {
        &self.certificate.portion
    }

    /// The products: that of the elements x and y is `table()[x][y]`.
    pub fn table(&self) -> &[Vec<u32>] {
        self.certificate.table()
    }

    /// Who wins the position.
    pub fn outcome(&self, heaps: &[u64]) -> Result<Outcome, Refusal> {
        self.opened.outcome(heaps).map(Outcome::from)
    }

    /// The element of the quotient that is the position's.
    pub fn value(&self, heaps: &[u64]) -> Result<u32, Refusal> {
        self.opened.value(heaps)
    }

    /// What to do in the position.
    pub fn answer(&self, heaps: &[u64]) -> Result<Answer, Refusal> {
        Ok(Answer::from(&self.opened.answer(heaps)?))
    }

    /// The outcome of each position.
    pub fn outcomes(&self, positions: &[&[u64]]) -> Result<Vec<Outcome>, Refusal> {
        Ok(self.opened.outcomes(positions)?.into_iter().map(Outcome::from).collect())
    }

    /// The element of each position.
    pub fn values(&self, positions: &[&[u64]]) -> Result<Vec<u32>, Refusal> {
        self.opened.values(positions)
    }

    /// What to do in each position.
    pub fn answers(&self, positions: &[&[u64]]) -> Result<Vec<Answer>, Refusal> {
        Ok(self.opened.answers(positions)?.iter().map(Answer::from).collect())
    }

    /// The description of the quotient, by a short list of relations or by their reduced Gröbner basis.
    pub fn describe(&self, output: Output, basis: bool) -> Result<String, Refusal> {
        let text = told_by(USUAL, |told, count| self.opened.describe(output as u32, basis as u32, told, count))?;
        Ok(String::from_utf8_lossy(&text).into_owned())
    }
}

impl PartialEq for Quotient {
    fn eq(&self, other: &Quotient) -> bool {
        self.certificate() == other.certificate()
    }
}

impl Eq for Quotient {}

impl fmt::Debug for Quotient {
    fn fmt(&self, f: &mut fmt::Formatter) -> fmt::Result {
        let (code, order, start, period) = (self.code(), self.order(), self.start(), self.period());
        f.debug_struct("Quotient").field("code", &code).field("order", &order).field("start", &start).field("period", &period).finish()
    }
}

impl TryFrom<&[u8]> for Quotient {
    type Error = Refusal;

    fn try_from(bytes: &[u8]) -> Result<Quotient, Refusal> {
        Quotient::check(bytes, LIMIT)
    }
}

/// The status and what is told of a call that takes a room for it and says how long it is. It is asked again if the room is too small.
pub(crate) fn status_and_told(mut room: usize, call: impl Fn(&mut [u8], &mut u64) -> u32) -> (u32, Vec<u8>) {
    loop {
        let (mut told, mut count) = (vec![0; room], 0);
        let status = call(&mut told, &mut count);
        if Refusal(status) != Refusal::NO_ROOM {
            told.truncate(count as usize);
            return (status, told);
        }
        room = count as usize;
    }
}

/// What a call tells that takes a room for it.
pub(crate) fn told_by(room: usize, call: impl Fn(&mut [u8], &mut u64) -> u32) -> Result<Vec<u8>, Refusal> {
    let (status, told) = status_and_told(room, call);
    done(status, told)
}

/// The last line of a text. Of a search that was given up it is the reason.
pub(crate) fn last_line(text: &[u8]) -> String {
    String::from_utf8_lossy(text).lines().last().unwrap_or_default().to_owned()
}
