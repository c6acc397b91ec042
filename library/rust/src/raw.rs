//! The calls of libmisere as they are. `scripts/calls_stand` compares them with the exports. Those that are given a certificate's bytes
//! stand here too, though what is opened serves in their place.

#![allow(dead_code)]

use std::ffi::c_void;
use std::ptr::null_mut;

#[repr(C)]
#[derive(Clone, Default)]
pub struct Told {
    pub kind: u64,
    pub heap: u64,
    pub first: u64,
    pub second: u64,
    pub third: u64,
}

/// An owner of an opened quotient, finite or infinite, or of none.
#[repr(C)]
pub struct Opened {
    pub full: u64,
    pub kept: *mut c_void,
}

impl Opened {
    pub const CLOSED: Opened = Opened { full: 0, kept: null_mut() };
}

pub type Share = unsafe extern "C" fn(&mut Opened, &mut Opened) -> u32;
pub type Close = unsafe extern "C" fn(&mut Opened) -> u32;
pub type OneSorted = unsafe extern "C" fn(&mut Opened, *mut u64, usize, &mut Told) -> u32;
pub type SolveInfinite = unsafe extern "C" fn(*const u8, usize, u32, *mut u8, usize, &mut u64) -> u32;
pub type OneOpened<T> = unsafe extern "C" fn(&mut Opened, *const u64, usize, &mut T) -> u32;
pub type ManyOpened<T> = unsafe extern "C" fn(&mut Opened, *const u64, usize, *const u64, usize, *mut T, usize) -> u32;

unsafe extern "C" {
    pub fn misere_version() -> u32;
    pub fn misere_check(bytes: *const u8, length: usize, limit: u32) -> u32;
    pub fn misere_outcome(bytes: *const u8, length: usize, limit: u32, heaps: *const u64, count: usize, told: &mut u32) -> u32;
    pub fn misere_value(bytes: *const u8, length: usize, limit: u32, heaps: *const u64, count: usize, told: &mut u32) -> u32;
    pub fn misere_answer(bytes: *const u8, length: usize, limit: u32, heaps: *const u64, count: usize, told: &mut Told) -> u32;
    pub fn misere_outcomes(
        bytes: *const u8,
        length: usize,
        limit: u32,
        heaps: *const u64,
        count: usize,
        ends: *const u64,
        positions: usize,
        told: *mut u32,
        room: usize,
    ) -> u32;
    pub fn misere_values(
        bytes: *const u8,
        length: usize,
        limit: u32,
        heaps: *const u64,
        count: usize,
        ends: *const u64,
        positions: usize,
        told: *mut u32,
        room: usize,
    ) -> u32;
    pub fn misere_answers(
        bytes: *const u8,
        length: usize,
        limit: u32,
        heaps: *const u64,
        count: usize,
        ends: *const u64,
        positions: usize,
        told: *mut Told,
        room: usize,
    ) -> u32;
    pub fn misere_failure(bytes: *const u8, length: usize, limit: u32, told: *mut u64, room: usize, count: &mut u64) -> u32;
    pub fn misere_solve(
        code: *const u8,
        length: usize,
        limit: u32,
        rounds: u32,
        aim: u32,
        heaps: u32,
        order: u32,
        told: *mut u8,
        room: usize,
        count: &mut u64,
    ) -> u32;
    pub fn misere_solve_why(
        code: *const u8,
        length: usize,
        limit: u32,
        rounds: u32,
        aim: u32,
        heaps: u32,
        order: u32,
        told: *mut u8,
        room: usize,
        count: &mut u64,
    ) -> u32;
    pub fn misere_solve_infinite(code: *const u8, length: usize, heaps: u32, told: *mut u8, room: usize, count: &mut u64) -> u32;
    pub fn misere_solve_presented(code: *const u8, length: usize, heaps: u32, told: *mut u8, room: usize, count: &mut u64) -> u32;
    pub fn misere_certify(table: *const u8, length: usize, limit: u32, told: *mut u8, room: usize, count: &mut u64) -> u32;
    pub fn misere_describe(bytes: *const u8, length: usize, limit: u32, output: u32, form: u32, told: *mut u8, room: usize, count: &mut u64) -> u32;
    pub fn misere_open(bytes: *const u8, length: usize, limit: u32, told: &mut Opened) -> u32;
    pub fn misere_share(opened: &mut Opened, told: &mut Opened) -> u32;
    pub fn misere_close(opened: &mut Opened) -> u32;
    pub fn misere_opened_outcome(opened: &mut Opened, heaps: *const u64, count: usize, told: &mut u32) -> u32;
    pub fn misere_opened_value(opened: &mut Opened, heaps: *const u64, count: usize, told: &mut u32) -> u32;
    pub fn misere_opened_answer(opened: &mut Opened, heaps: *mut u64, count: usize, told: &mut Told) -> u32;
    pub fn misere_opened_outcomes(
        opened: &mut Opened,
        heaps: *const u64,
        count: usize,
        ends: *const u64,
        positions: usize,
        told: *mut u32,
        room: usize,
    ) -> u32;
    pub fn misere_opened_values(
        opened: &mut Opened,
        heaps: *const u64,
        count: usize,
        ends: *const u64,
        positions: usize,
        told: *mut u32,
        room: usize,
    ) -> u32;
    pub fn misere_opened_answers(
        opened: &mut Opened,
        heaps: *const u64,
        count: usize,
        ends: *const u64,
        positions: usize,
        told: *mut Told,
        room: usize,
    ) -> u32;
    pub fn misere_opened_describe(opened: &mut Opened, output: u32, form: u32, told: *mut u8, room: usize, count: &mut u64) -> u32;
    pub fn misere_check_infinite(bytes: *const u8, length: usize) -> u32;
    pub fn misere_infinite_failure(bytes: *const u8, length: usize, told: *mut u64, room: usize, count: &mut u64) -> u32;
    pub fn misere_infinite_open(bytes: *const u8, length: usize, told: &mut Opened) -> u32;
    pub fn misere_infinite_share(opened: &mut Opened, told: &mut Opened) -> u32;
    pub fn misere_infinite_close(opened: &mut Opened) -> u32;
    pub fn misere_infinite_kind(opened: &mut Opened, told: &mut u64) -> u32;
    pub fn misere_infinite_order(opened: &mut Opened, told: &mut u64) -> u32;
    pub fn misere_infinite_code(opened: &mut Opened, told: *mut u8, room: usize, count: &mut u64) -> u32;
    pub fn misere_infinite_outcome(opened: &mut Opened, heaps: *const u64, count: usize, told: &mut u32) -> u32;
    pub fn misere_infinite_answer(opened: &mut Opened, heaps: *mut u64, count: usize, told: &mut Told) -> u32;
    pub fn misere_infinite_outcomes(
        opened: &mut Opened,
        heaps: *const u64,
        count: usize,
        ends: *const u64,
        positions: usize,
        told: *mut u32,
        room: usize,
    ) -> u32;
    pub fn misere_infinite_describe(opened: &mut Opened, output: u32, told: *mut u8, room: usize, count: &mut u64) -> u32;
    pub fn misere_infinite_value(opened: &mut Opened, heaps: *const u64, count: usize, told: *mut u8, room: usize, length: &mut u64) -> u32;
    pub fn misere_infinite_answers(
        opened: &mut Opened,
        heaps: *const u64,
        count: usize,
        ends: *const u64,
        positions: usize,
        told: *mut Told,
        room: usize,
    ) -> u32;
}
