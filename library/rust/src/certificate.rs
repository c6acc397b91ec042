//! The text of a certificate, which the library has accepted before it is read here.

use std::str::FromStr;
use std::sync::OnceLock;

/// What the lines of a certificate say.
#[derive(Debug)]
pub(crate) struct Certificate {
    pub code: String,
    pub order: usize,
    pub start: u64,
    /// 0 of a partial one.
    pub period: u64,
    /// The elements of the heaps 1, 2, ..
    pub phi: Vec<u32>,
    /// Rising.
    pub portion: Vec<u32>,
    /// An element and a heap, whose product is the element 1, 2, ..
    keys: Vec<(usize, usize)>,
    rows: Vec<Vec<u32>>,
    /// All rows, where the text leaves some out, once they are asked for.
    made: OnceLock<Vec<Vec<u32>>>,
}

impl Certificate {
    /// The products.
    pub fn table(&self) -> &[Vec<u32>] {
        if self.rows.len() == self.order { &self.rows } else { self.made.get_or_init(|| self.all_rows()) }
    }

    /// All rows, of those of the elements that heaps have: each other element is the product of its key.
    fn all_rows(&self) -> Vec<Vec<u32>> {
        let mut rows = vec![(0..self.order as u32).collect()];
        rows.extend_from_slice(&self.rows);
        for &(element, heap) in &self.keys[self.rows.len()..] {
            let of_heap = &rows[self.phi[heap - 1] as usize];
            rows.push(of_heap.iter().map(|&x| rows[element][x as usize]).collect());
        }
        rows
    }
}

/// Which heaps a text of an infinite quotient, or a presentation, speaks of: those up to the last one, but for some; or all, and then there
/// is no last one.
#[derive(Debug)]
pub(crate) struct Part {
    pub code: String,
    pub last_heap: Option<u64>,
    /// Rising.
    pub without: Vec<u64>,
}

/// The words of the lines of this name, a line each.
fn lines<'a>(text: &'a str, name: &'a str) -> impl Iterator<Item = std::str::Split<'a, char>> {
    text.lines().filter_map(move |line| line.strip_prefix(name)?.strip_prefix(' ')).map(|words| words.split(' '))
}

/// The numbers of such words, or none where a word is no number.
fn numbers<T: FromStr>(words: std::str::Split<char>) -> Option<Vec<T>> {
    words.map(|word| word.parse().ok()).collect()
}

/// The element and the heap of a key, or none where the word is none.
fn key(word: &str) -> Option<(usize, usize)> {
    let (element, heap) = word.split_once(':')?;
    Some((element.parse().ok()?, heap.parse().ok()?))
}

/// What a text says; none of a text that is no certificate.
pub(crate) fn read(bytes: &[u8]) -> Option<Certificate> {
    let text = std::str::from_utf8(bytes).ok()?;
    let number = |name| lines(text, name).next()?.next()?.parse().ok();
    Some(Certificate {
        code: lines(text, "code").next()?.collect(),
        order: number("order")? as usize,
        start: number("start")?,
        period: number("period")?,
        phi: numbers(lines(text, "phi").next()?)?,
        portion: numbers(lines(text, "portion").next()?)?,
        keys: lines(text, "words").next()?.map(key).collect::<Option<_>>()?,
        rows: lines(text, "row").map(numbers).collect::<Option<_>>()?,
        made: OnceLock::new(),
    })
}

/// What a text of a whole game, or a presentation, says of its heaps; none of a text that is none. One of a whole game speaks of all. A heap
/// that a presentation leaves out is a minus in the line of the heaps' words.
pub(crate) fn read_part(bytes: &[u8]) -> Option<Part> {
    let text = std::str::from_utf8(bytes).ok()?;
    let code = lines(text, "code").next()?.collect();
    if text.starts_with("mqw ") {
        return Some(Part { code, last_heap: None, without: Vec::new() });
    }
    let words = lines(text, "words").next()?;
    let mut heaps = lines(text, "heaps").next()?;
    let last = heaps.next()?.parse().ok()?;
    Some(Part {
        code,
        // (behind it a presentation of a whole game has its period)
        last_heap: heaps.next().is_none().then_some(last),
        without: (1..).zip(words).filter(|(_, word)| *word == "-").map(|(heap, _)| heap).collect(),
    })
}
