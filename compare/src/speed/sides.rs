//! A side: reader, check and judge, called by C's rules. A slice is a pointer and a length; the outcome is one number, with the
//! answer in its lowest 8 bits, the value in the next 24 and the steps above them.
use crate::answer::Judgement;
use crate::fast;
use std::slice::{from_raw_parts, from_raw_parts_mut};

/// The three functions of a side.
#[repr(C)]
#[derive(Clone, Copy)]
pub struct Side {
    read: unsafe extern "C" fn(*const u8, usize, *mut u16, usize) -> u64,
    check: unsafe extern "C" fn(*const u16, usize) -> u64,
    judge: unsafe extern "C" fn(*const u16, usize, *const u16, usize, *mut u32, usize) -> u64,
}

/// The implementation for speed.
pub const FAST: Side = Side { read: fast_read, check: fast_check, judge: fast_judge };

impl Side {
    /// Reads a sheet into a slice.
    #[inline(never)]
    pub fn read(&self, sheet: &[u8], slice: &mut [u16]) -> u64 {
        // SAFETY: each pointer goes with its slice's length.
        unsafe { (self.read)(sheet.as_ptr(), sheet.len(), slice.as_mut_ptr(), slice.len()) }
    }

    /// Checks a table of numbers.
    #[inline(never)]
    pub fn check(&self, table: &[u16]) -> u64 {
        // SAFETY: the pointer goes with the slice's length.
        unsafe { (self.check)(table.as_ptr(), table.len()) }
    }

    /// Judges a tail in a room.
    #[inline(never)]
    pub fn judge(&self, table: &[u16], tail: &[u16], room: &mut [u32]) -> u64 {
        let (numbers, tokens, words) = (table.len(), tail.len(), room.len());
        // SAFETY: each pointer goes with its slice's length.
        unsafe { (self.judge)(table.as_ptr(), numbers, tail.as_ptr(), tokens, room.as_mut_ptr(), words) }
    }
}

/// A judgement in one number.
fn packed(told: Judgement) -> u64 {
    told.steps << 32 | told.value << 8 | told.answer
}

/// The steps in a number.
pub fn steps(told: u64) -> u64 {
    told >> 32
}

unsafe extern "C" fn fast_read(bytes: *const u8, count: usize, slice: *mut u16, places: usize) -> u64 {
    // SAFETY: whoever calls hands over slices.
    let (sheet, slice) = unsafe { (from_raw_parts(bytes, count), from_raw_parts_mut(slice, places)) };
    packed(fast::read_into(sheet, slice))
}

unsafe extern "C" fn fast_check(table: *const u16, count: usize) -> u64 {
    // SAFETY: whoever calls hands over a slice.
    packed(fast::check(unsafe { from_raw_parts(table, count) }))
}

unsafe extern "C" fn fast_judge(
    table: *const u16,
    numbers: usize,
    tail: *const u16,
    tokens: usize,
    room: *mut u32,
    words: usize,
) -> u64 {
    // SAFETY: whoever calls hands over slices.
    let (table, tail) = unsafe { (from_raw_parts(table, numbers), from_raw_parts(tail, tokens)) };
    // SAFETY: the same.
    packed(fast::judge(table, tail, unsafe { from_raw_parts_mut(room, words) }))
}
