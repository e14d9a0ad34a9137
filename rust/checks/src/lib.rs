//! The exported functions on slices: what a call answers is the bare number, and what it leaves in a buffer is there to be
//! looked at, also after a refusal.

#![deny(clippy::undocumented_unsafe_blocks)]

use oracle::{Cycle, OwnBit};
use rajvokshul_sys as sys;

pub mod inputs;
pub mod same;
pub mod steps;

pub fn opening(lengths: &[u16], metres: &[u16], seconds: &[u16], crusher: &mut u8) -> u32 {
    // SAFETY: the lists are slices, valid for reads of their lengths, and the crusher is borrowed for writing, so that it
    // overlaps none.
    unsafe {
        sys::rajvokshul_opening(
            lengths.as_ptr(),
            lengths.len(),
            metres.as_ptr(),
            metres.len(),
            seconds.as_ptr(),
            seconds.len(),
            crusher,
        )
    }
}

pub fn list(bytes: &[u8], text: &mut [u8], written: &mut usize) -> u32 {
    // SAFETY: the recording is borrowed for reading, the text and the number each for writing, so that no two overlap; each is
    // valid for its length.
    unsafe {
        sys::rajvokshul_list(bytes.as_ptr(), bytes.len(), text.as_mut_ptr(), text.len(), written)
    }
}

/// By the call of the cycle.
#[inline]
pub fn run(cycle: Cycle, bytes: &[u8], record: &mut [u8]) -> u32 {
    let call = match cycle {
        Cycle::TwoRound => sys::rajvokshul_run,
        Cycle::SixRound => sys::rajvokshul_run_six,
    };
    // SAFETY: the recording is borrowed for reading and the record for writing, so that they do not overlap; each is valid for
    // its length.
    unsafe { call(bytes.as_ptr(), bytes.len(), record.as_mut_ptr(), record.len()) }
}

/// By the call of the cycle.
#[inline]
pub fn grade(cycle: Cycle, bytes: &[u8], grades: &mut [u16]) -> u32 {
    let call = match cycle {
        Cycle::TwoRound => sys::rajvokshul_grade,
        Cycle::SixRound => sys::rajvokshul_grade_six,
    };
    // SAFETY: the recording is borrowed for reading and the grades for writing, so that they do not overlap; each is valid for
    // its length.
    unsafe { call(bytes.as_ptr(), bytes.len(), grades.as_mut_ptr(), grades.len()) }
}

pub fn read(
    bytes: &[u8],
    openings: &mut [u8],
    words: &mut [u32],
    trucks: &mut u32,
    rounds: &mut u32,
) -> u32 {
    // SAFETY: the recording is borrowed for reading, all else for writing, so that no two overlap; each is valid for its
    // length.
    unsafe {
        sys::rajvokshul_read(
            bytes.as_ptr(),
            bytes.len(),
            openings.as_mut_ptr(),
            openings.len(),
            words.as_mut_ptr(),
            words.len(),
            trucks,
            rounds,
        )
    }
}

pub fn write(
    trucks: u32,
    rounds: u32,
    openings: &[u8],
    words: &[u32],
    bytes: &mut [u8],
    written: &mut usize,
) -> u32 {
    // SAFETY: the openings and the words are borrowed for reading, the bytes and the number each for writing, so that what is
    // written overlaps nothing; each is valid for its length.
    unsafe {
        sys::rajvokshul_write(
            trucks,
            rounds,
            openings.as_ptr(),
            openings.len(),
            words.as_ptr(),
            words.len(),
            bytes.as_mut_ptr(),
            bytes.len(),
            written,
        )
    }
}

pub fn start(trucks: u32, openings: &[u8], record: &mut [u8]) -> u32 {
    // SAFETY: the openings are borrowed for reading and the record for writing, so that they do not overlap; each is valid for
    // its length.
    unsafe {
        sys::rajvokshul_start(
            trucks,
            openings.as_ptr(),
            openings.len(),
            record.as_mut_ptr(),
            record.len(),
        )
    }
}

/// By the call of the cycle.
#[inline]
pub fn step(cycle: Cycle, record: &mut [u8], words: &[u32]) -> u32 {
    let call = match cycle {
        Cycle::TwoRound => sys::rajvokshul_step,
        Cycle::SixRound => sys::rajvokshul_step_six,
    };
    // SAFETY: the record is borrowed for writing and the words for reading, so that they do not overlap; each is valid for its
    // length.
    unsafe { call(record.as_mut_ptr(), record.len(), words.as_ptr(), words.len()) }
}

pub fn recording_own_loss(bytes: &[u8]) -> u32 {
    // SAFETY: the recording is a slice, valid for reads of its length, and nothing is written.
    unsafe { sys::rajvokshul_recording_own_loss(bytes.as_ptr(), bytes.len()) }
}

pub fn write_own_loss(trucks: u32, rounds: u32, openings: &[u8], words: &[u32]) -> u32 {
    // SAFETY: the openings and the words are slices, valid for reads of their lengths, and nothing is written.
    unsafe {
        sys::rajvokshul_write_own_loss(
            trucks,
            rounds,
            openings.as_ptr(),
            openings.len(),
            words.as_ptr(),
            words.len(),
        )
    }
}

pub fn round_own_loss(trucks: u32, round: u32, words: &[u32]) -> u32 {
    // SAFETY: the words are a slice, valid for reads of its length, and nothing is written.
    unsafe { sys::rajvokshul_round_own_loss(trucks, round, words.as_ptr(), words.len()) }
}

/// What these three answer of a place: 256 times the round, and the truck; 0 of none.
pub fn own_loss_number(place: Option<OwnBit>) -> u32 {
    place.map_or(0, |bit| 256 * u32::from(bit.round) + u32::from(bit.truck))
}

/// How often a test repeats: the environment variable CHECKS multiplies it for longer runs.
pub fn times(count: usize) -> usize {
    let factor: usize =
        std::env::var("CHECKS").map_or(1, |s| s.parse().expect("CHECKS is a number"));
    assert!(factor > 0, "CHECKS is 0: nothing would be tested");
    count * factor
}
