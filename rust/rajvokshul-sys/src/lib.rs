//! The exported functions of the proved library as they are, and the archive that has them; the crate `rajvokshul` is the safe
//! form. `rajvokshul.h` declares the same functions for C and says more of each.
//!
//! Every function answers 0 or the number of the refusal, 1 to 14, but for the three whose names end in `_own_loss`. On a
//! refusal nothing that was lent is changed.
//!
//! # Safety
//!
//! Of all these functions the same is asked, and nothing of the values:
//!
//! - a pointer followed by a length is a list: it is valid for reads of so many elements and, where it is `*mut`, for writes.
//!   That of a list of length 0 is not used and may be null;
//! - any other pointer is valid for a write;
//! - what is written overlaps nothing else that is handed in, and nobody else reads or writes it during the call.
//!
//! # Linking
//!
//! The archive is looked for in the folder that the environment variable `RAJVOKSHUL_LIB_DIR` names when this crate is built,
//! else where it stands beside this crate: in `target/staticlib` of the repository, where `./staticlib ffi` writes it, or in
//! `lib` of an installation.

#![no_std]
#![deny(missing_docs)]

extern "C" {
    /// Runs a recording in the two-round cycle and writes its listing; `written` becomes the number of bytes. Refusals: 1 to 6, 9.
    pub fn rajvokshul_list(
        bytes: *const u8,
        bytes_len: usize,
        text: *mut u8,
        text_len: usize,
        written: *mut usize,
    ) -> u32;
    /// Runs a recording in the two-round cycle and writes the fleet record that it leaves. Refusals: 1 to 6, 9.
    pub fn rajvokshul_run(
        bytes: *const u8,
        bytes_len: usize,
        record: *mut u8,
        record_len: usize,
    ) -> u32;
    /// The same in the six-round cycle.
    pub fn rajvokshul_run_six(
        bytes: *const u8,
        bytes_len: usize,
        record: *mut u8,
        record_len: usize,
    ) -> u32;
    /// Grades a recording in the two-round cycle: four numbers, which are for the classes complete, majority complete, zero
    /// complete and accurate the first round that breaks it, or 0. Refusals: 1 to 6, 9.
    pub fn rajvokshul_grade(
        bytes: *const u8,
        bytes_len: usize,
        grades: *mut u16,
        grades_len: usize,
    ) -> u32;
    /// The same in the six-round cycle.
    pub fn rajvokshul_grade_six(
        bytes: *const u8,
        bytes_len: usize,
        grades: *mut u16,
        grades_len: usize,
    ) -> u32;
    /// Reads a recording to plain form: an opening for each truck, and the words of all rounds one after the other. `trucks`
    /// and `rounds` become their numbers. Refusals: 1 to 6, 9.
    pub fn rajvokshul_read(
        bytes: *const u8,
        bytes_len: usize,
        openings: *mut u8,
        openings_len: usize,
        words: *mut u32,
        words_len: usize,
        trucks: *mut u32,
        rounds: *mut u32,
    ) -> u32;
    /// Writes a recording from plain form; `written` becomes the number of bytes. Refusals: 2, 3, 7, 8, 6, 9.
    pub fn rajvokshul_write(
        trucks: u32,
        rounds: u32,
        openings: *const u8,
        openings_len: usize,
        words: *const u32,
        words_len: usize,
        bytes: *mut u8,
        bytes_len: usize,
        written: *mut usize,
    ) -> u32;
    /// Starts a fleet with an opening for each of its trucks. Refusals: 2, 7, 9.
    pub fn rajvokshul_start(
        trucks: u32,
        openings: *const u8,
        openings_len: usize,
        record: *mut u8,
        record_len: usize,
    ) -> u32;
    /// Steps a fleet by one round of the two-round cycle in plain form. Refusals: 7, 14, 8, 6.
    pub fn rajvokshul_step(
        record: *mut u8,
        record_len: usize,
        words: *const u32,
        words_len: usize,
    ) -> u32;
    /// The same in the six-round cycle.
    pub fn rajvokshul_step_six(
        record: *mut u8,
        record_len: usize,
        words: *const u32,
        words_len: usize,
    ) -> u32;
    /// Where the own loss bit is for which a recording is refused with 6: 256 times the round, and the truck; 0 where 6 does
    /// not refuse it.
    pub fn rajvokshul_recording_own_loss(bytes: *const u8, bytes_len: usize) -> u32;
    /// The same of plain form that is not written.
    pub fn rajvokshul_write_own_loss(
        trucks: u32,
        rounds: u32,
        openings: *const u8,
        openings_len: usize,
        words: *const u32,
        words_len: usize,
    ) -> u32;
    /// The same of one round by which a fleet of so many trucks is not stepped.
    pub fn rajvokshul_round_own_loss(
        trucks: u32,
        round: u32,
        words: *const u32,
        words_len: usize,
    ) -> u32;
    /// The crusher that a truck opens with: that of the road with the least exact travel time, the lowest number on a tie. A
    /// road has its length in metres, and the metres and seconds of the last run on it. Refusals: 10, 11, 12, 13.
    pub fn rajvokshul_opening(
        lengths: *const u16,
        lengths_len: usize,
        metres: *const u16,
        metres_len: usize,
        seconds: *const u16,
        seconds_len: usize,
        crusher: *mut u8,
    ) -> u32;
}
