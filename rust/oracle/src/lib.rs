//! A second reading of the scope paper "Crusher agreement by radio rounds",
//! in plain Rust, made to test the library from outside. Where the two cycles of
//! rounds differ, a function takes the cycle.
//!
//! Everything outside [`fast`] is written for reading: bits one at a time,
//! trucks one at a time, no masks. [`fast`] follows the same rules with masks
//! and is a yardstick for speed. [`gen`] makes inputs from a fixed seed.
//!
//! A refusal is its number in the paper, 1 to 14; where 6 finds an own loss bit
//! is answered by functions of its own. Where an answer is a number beside a
//! record, 0 stands for accepted.

#![forbid(unsafe_code)]
// Rules read best with plain indices and remainders.
#![allow(clippy::needless_range_loop, clippy::manual_is_multiple_of)]

pub mod bytes;
pub mod cycle;
pub mod fast;
pub mod fleet;
pub mod gen;
pub mod listing;
pub mod lists;
pub mod marks;
pub mod recording;
pub mod roads;
pub mod steps;

pub use cycle::{Cycle, RoundKind};
pub use fleet::{Fleet, Heard, Sent, State, Truck};
pub use listing::{listing, listing_into, program};
pub use lists::List;
pub use marks::{calm, grade, Classes};
pub use recording::{
    check, own_bit, read, read_into, round_own_bit, write, write_into, write_own_bit, Header,
    OwnBit, Plain,
};
pub use roads::opening;
pub use steps::{run, start, step, step_own_bit, Radio};
