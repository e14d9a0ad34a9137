//! A dispatcher's view of a recording: what each truck sent, heard, missed and came to in each round, why a recording is
//! refused, and a picture of the whole run; and a recording made from lines of text.
//!
//! Verdicts on a recording come from the proved library (`rajvokshul`). What it does not answer, such as who missed whom,
//! is derived here from the plain form of the recording, and [`story::tell`] answers a contradiction wherever the
//! derivation and the proved calls differ, so that nothing unchecked is shown.

#![forbid(unsafe_code)]
#![deny(missing_docs)]

pub mod command;
pub mod explain;
pub mod picture;
pub mod record;
pub mod story;
pub mod timeline;
pub mod trucks;
pub mod verdict;
