//! A quotient that the library keeps, finite or infinite.

use crate::raw;
use crate::refusal::{Refusal, done};
use std::alloc::{Layout, handle_alloc_error};
use std::cell::UnsafeCell;
use std::marker::PhantomData;

/// The calls on opened quotients of a kind.
pub(crate) struct Calls {
    share: raw::Share,
    close: raw::Close,
    outcome: raw::OneOpened<u32>,
    answer: raw::OneSorted,
    outcomes: raw::ManyOpened<u32>,
    answers: raw::ManyOpened<raw::Told>,
}

/// A kind of quotients.
pub(crate) trait Kind {
    const CALLS: Calls;
}

/// Quotients.
pub(crate) struct Finite;

impl Kind for Finite {
    const CALLS: Calls = Calls {
        share: raw::misere_share,
        close: raw::misere_close,
        outcome: raw::misere_opened_outcome,
        answer: raw::misere_opened_answer,
        outcomes: raw::misere_opened_outcomes,
        answers: raw::misere_opened_answers,
    };
}

/// Infinite quotients, and those that are presented.
pub(crate) struct Infinite;

impl Kind for Infinite {
    const CALLS: Calls = Calls {
        share: raw::misere_infinite_share,
        close: raw::misere_infinite_close,
        outcome: raw::misere_infinite_outcome,
        answer: raw::misere_infinite_answer,
        outcomes: raw::misere_infinite_outcomes,
        answers: raw::misere_infinite_answers,
    };
}

/// An owner of a quotient that the library keeps: it was checked once, and the last owner that is dropped frees it.
///
/// One thread at a time asks an owner. A clone is another owner of the same quotient, as for another thread.
pub(crate) struct Opened<K: Kind>(UnsafeCell<raw::Opened>, PhantomData<K>);

// SAFETY: a call is given an owner alone, from whatever thread. What owners share is the library's, which lets their threads
// call at once.
unsafe impl<K: Kind> Send for Opened<K> {}

impl<K: Kind> Opened<K> {
    fn closed() -> Opened<K> {
        Opened(UnsafeCell::new(raw::Opened::CLOSED), PhantomData)
    }

    /// Another owner of the same quotient. It is refused if memory is.
    pub fn share(&self) -> Result<Opened<K>, Refusal> {
        let mut other = Opened::closed();
        // SAFETY: both are owners or closed ones, each borrowed for the call alone.
        let status = unsafe { (K::CALLS.share)(self.alone(), other.0.get_mut()) };
        done(status, other)
    }

    /// The owner for a call.
    ///
    /// # Safety
    /// It is let go before the next call. (There is no other meanwhile: it isn't `Sync`, and no call calls back.)
    #[allow(clippy::mut_from_ref)]
    unsafe fn alone(&self) -> &mut raw::Opened {
        // SAFETY: as above.
        unsafe { &mut *self.0.get() }
    }

    fn asked(&self, call: raw::OneOpened<u32>, heaps: &[u64]) -> Result<u32, Refusal> {
        let mut told = 0;
        // SAFETY: the pointer stands with the length of its slice, and the rest is borrowed for the call.
        let status = unsafe { call(self.alone(), heaps.as_ptr(), heaps.len(), &mut told) };
        done(status, told)
    }

    fn asked_of_all<T: Clone + Default>(&self, call: raw::ManyOpened<T>, positions: &[&[u64]]) -> Result<Vec<T>, Refusal> {
        let (heaps, ends) = (positions.concat(), ends_of(positions));
        let mut told = vec![T::default(); ends.len()];
        // SAFETY: each pointer stands with the length of its slice; that of an empty `Vec` isn't null.
        let status = unsafe { call(self.alone(), heaps.as_ptr(), heaps.len(), ends.as_ptr(), ends.len(), told.as_mut_ptr(), told.len()) };
        done(status, told)
    }

    pub fn outcome(&self, heaps: &[u64]) -> Result<u32, Refusal> {
        self.asked(K::CALLS.outcome, heaps)
    }

    pub fn answer(&self, heaps: &[u64]) -> Result<raw::Told, Refusal> {
        let (mut heaps, mut told) = (heaps.to_vec(), raw::Told::default());
        // SAFETY: the pointer stands with the length of its slice, and the rest is borrowed for the call.
        let status = unsafe { (K::CALLS.answer)(self.alone(), heaps.as_mut_ptr(), heaps.len(), &mut told) };
        done(status, told)
    }

    pub fn outcomes(&self, positions: &[&[u64]]) -> Result<Vec<u32>, Refusal> {
        self.asked_of_all(K::CALLS.outcomes, positions)
    }

    pub fn answers(&self, positions: &[&[u64]]) -> Result<Vec<raw::Told>, Refusal> {
        self.asked_of_all(K::CALLS.answers, positions)
    }
}

impl Opened<Finite> {
    /// An owner of what the bytes certify, or the refusal.
    pub fn check(bytes: &[u8], limit: u32) -> Result<Opened<Finite>, Refusal> {
        let mut opened = Opened::closed();
        // SAFETY: the pointer and the length are those of one slice, and the owner is borrowed for the call.
        let status = unsafe { raw::misere_open(bytes.as_ptr(), bytes.len(), limit, opened.0.get_mut()) };
        done(status, opened)
    }

    pub fn value(&self, heaps: &[u64]) -> Result<u32, Refusal> {
        self.asked(raw::misere_opened_value, heaps)
    }

    pub fn values(&self, positions: &[&[u64]]) -> Result<Vec<u32>, Refusal> {
        self.asked_of_all(raw::misere_opened_values, positions)
    }

    pub fn describe(&self, output: u32, form: u32, told: &mut [u8], count: &mut u64) -> u32 {
        // SAFETY: the pointer stands with the length of its slice, and the rest is borrowed for the call.
        unsafe { raw::misere_opened_describe(self.alone(), output, form, told.as_mut_ptr(), told.len(), count) }
    }
}

impl Opened<Infinite> {
    /// An owner of what the bytes show, or the refusal.
    pub fn check(bytes: &[u8]) -> Result<Opened<Infinite>, Refusal> {
        let mut opened = Opened::closed();
        // SAFETY: the pointer and the length are those of one slice, and the owner is borrowed for the call.
        let status = unsafe { raw::misere_infinite_open(bytes.as_ptr(), bytes.len(), opened.0.get_mut()) };
        done(status, opened)
    }

    pub fn describe(&self, output: u32, told: &mut [u8], count: &mut u64) -> u32 {
        // SAFETY: the pointer stands with the length of its slice, and the rest is borrowed for the call.
        unsafe { raw::misere_infinite_describe(self.alone(), output, told.as_mut_ptr(), told.len(), count) }
    }

    pub fn order(&self) -> Result<u64, Refusal> {
        let mut told = 0;
        // SAFETY: all is borrowed for the call.
        let status = unsafe { raw::misere_infinite_order(self.alone(), &mut told) };
        done(status, told)
    }

    pub fn value(&self, heaps: &[u64], told: &mut [u8], count: &mut u64) -> u32 {
        // SAFETY: each pointer stands with the length of its slice, and the rest is borrowed for the call.
        unsafe { raw::misere_infinite_value(self.alone(), heaps.as_ptr(), heaps.len(), told.as_mut_ptr(), told.len(), count) }
    }
}

/// Where each of the positions ends, if they stand one after another.
fn ends_of(positions: &[&[u64]]) -> Vec<u64> {
    let ends = positions.iter().scan(0, |end, heaps| {
        *end += heaps.len() as u64;
        Some(*end)
    });
    ends.collect()
}

impl<K: Kind> Clone for Opened<K> {
    /// Another owner. Where memory is refused it ends as other allocations do; `try_clone` of a quotient tells it.
    fn clone(&self) -> Opened<K> {
        self.share().unwrap_or_else(|_| handle_alloc_error(Layout::new::<raw::Opened>()))
    }
}

impl<K: Kind> Drop for Opened<K> {
    fn drop(&mut self) {
        // SAFETY: it is an owner or a closed one, and nobody has it any more.
        unsafe { (K::CALLS.close)(self.0.get_mut()) };
    }
}
