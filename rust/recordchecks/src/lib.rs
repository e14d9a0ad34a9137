//! The calls on whole records as they are.

#![deny(clippy::undocumented_unsafe_blocks)]

use oracle::Cycle;

mod raw {
    extern "C" {
        pub fn recordcalls_start(
            trucks: u32,
            openings: *const u8,
            openings_len: usize,
            record: *mut u8,
            record_len: usize,
        ) -> u32;
        pub fn recordcalls_step(
            record: *mut u8,
            record_len: usize,
            words: *const u32,
            words_len: usize,
        ) -> u32;
        pub fn recordcalls_step_six(
            record: *mut u8,
            record_len: usize,
            words: *const u32,
            words_len: usize,
        ) -> u32;
        pub fn recordcalls_copy(
            record: *const u8,
            record_len: usize,
            copy: *mut u8,
            copy_len: usize,
        ) -> u32;
    }
}

pub fn start(trucks: u32, openings: &[u8], record: &mut [u8]) -> u32 {
    let (from, to) = (openings.as_ptr(), record.as_mut_ptr());
    // SAFETY: the openings are borrowed for reading and the record for writing, so that they do not overlap; each is valid for its
    // length.
    unsafe { raw::recordcalls_start(trucks, from, openings.len(), to, record.len()) }
}

/// A step by the call of either cycle.
pub fn step(cycle: Cycle, record: &mut [u8], words: &[u32]) -> u32 {
    let call = match cycle {
        Cycle::TwoRound => raw::recordcalls_step,
        Cycle::SixRound => raw::recordcalls_step_six,
    };
    // SAFETY: the record is borrowed for writing and the words for reading, so that they do not overlap; each is valid for its
    // length.
    unsafe { call(record.as_mut_ptr(), record.len(), words.as_ptr(), words.len()) }
}

/// The record of some bytes put into another buffer.
pub fn copy(record: &[u8], copy: &mut [u8]) -> u32 {
    let (from, to) = (record.as_ptr(), copy.as_mut_ptr());
    // SAFETY: the record is borrowed for reading and the copy for writing, so that they do not overlap; each is valid for its
    // length.
    unsafe { raw::recordcalls_copy(from, record.len(), to, copy.len()) }
}
