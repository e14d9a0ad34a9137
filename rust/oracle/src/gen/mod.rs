//! Inputs made from a fixed seed, a file for each subject. Nothing here depends on
//! the clock, on the machine or on the order of tests.
//!
//! Where the rounds of an input go by a cycle, that is the first argument.

mod calls;
mod chance;
mod damaged;
mod lists;
mod recordings;
mod records;
mod roads;

pub use calls::*;
pub use chance::*;
pub use damaged::*;
pub use lists::*;
pub use recordings::*;
pub use records::*;
pub use roads::*;
