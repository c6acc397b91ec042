//! Quotients of one's own.

use crate::refusal::Refusal;
use std::fmt;

/// A quotient in any numbering of its elements, from GAP, say, or a paper. [`Quotient::certify`](crate::Quotient::certify) takes the text
/// that it displays.
///
/// ```
/// use misere::{LIMIT, OwnTable, Quotient};
///
/// let rows = [vec![1, 0], vec![0, 1]];
/// let own = OwnTable { code: "0.3", rows: &rows, heaps: &[0, 1], period: 2, portion: &[0] };
/// let quotient = Quotient::certify(own.to_string(), LIMIT)?;
/// assert_eq!((quotient.order(), quotient.start(), quotient.period()), (2, 1, 2));
/// # Ok::<(), misere::NotCertified>(())
/// ```
#[derive(Clone, Copy, Debug)]
pub struct OwnTable<'a> {
    /// The game's code, such as `0.33`.
    pub code: &'a str,
    /// The products: that of the elements x and y is `rows[x][y]`. The elements are the numbers below the order, 2 to 4096.
    pub rows: &'a [Vec<u32>],
    /// The elements of the heaps 1, 2, ..
    pub heaps: &'a [u32],
    /// How many of these, the last ones, come again and again: the fewest that do, from the first heap on from which they do. 0 of a part.
    pub period: usize,
    /// The elements of the positions that the player who has just moved wins, rising.
    pub portion: &'a [u32],
}

impl fmt::Display for OwnTable<'_> {
    /// The text that `misere certify` reads.
    fn fmt(&self, f: &mut fmt::Formatter) -> fmt::Result {
        let start = (self.heaps.len() + 1).saturating_sub(self.period);
        writeln!(f, "table 1\ncode {}\norder {}\nstart {start}\nperiod {}", self.code, self.rows.len(), self.period)?;
        line(f, "heaps", self.heaps)?;
        line(f, "portion", self.portion)?;
        for row in self.rows {
            line(f, "row", row)?;
        }
        writeln!(f, "end")
    }
}

fn line(f: &mut fmt::Formatter, name: &str, numbers: &[u32]) -> fmt::Result {
    write!(f, "{name}")?;
    for number in numbers {
        write!(f, " {number}")?;
    }
    writeln!(f)
}

/// Why a table isn't certified.
#[derive(Clone, Debug, PartialEq, Eq)]
pub struct NotCertified {
    /// The number of the refusal, or [`Refusal::GAVE_UP`] if no certificate was made.
    pub refusal: Refusal,
    /// What `misere certify` prints, such as `no 2 Commutes 1 2`: what is wrong, of the table's elements as they are numbered there. It is
    /// empty if memory was refused.
    pub lines: String,
}

impl From<Refusal> for NotCertified {
    fn from(refusal: Refusal) -> NotCertified {
        NotCertified { refusal, lines: String::new() }
    }
}

impl fmt::Display for NotCertified {
    fn fmt(&self, f: &mut fmt::Formatter) -> fmt::Result {
        match self.lines.lines().next() {
            Some(first) => write!(f, "{first}"),
            None => self.refusal.fmt(f),
        }
    }
}

impl std::error::Error for NotCertified {}
