//! Crusher agreement by radio rounds: up to 32 trucks that share one radio channel settle on one crusher.
//!
//! This crate calls the proved library through its exported functions and adds no rules of its own. [`Fleet`] starts,
//! steps and runs a fleet, [`Recorder`] does so and keeps the rounds, which [`Round`] builds by naming trucks; [`list`],
//! [`grade`], [`read`] and [`write`](fn@write) work on recordings; [`opening`] picks a truck's first crusher. Whatever is
//! refused answers a [`Refusal`] and changes nothing. Functions whose names end in `_in` take the [`Cycle`] of rounds; the
//! others are for the two-round one.
//!
//! The crate `rajvokshul-sys`, which stands beside this one, declares those functions and links the archive of the library.
//! The archive is looked for in the folder that the environment variable `RAJVOKSHUL_LIB_DIR` names when that crate is built,
//! else where it stands beside it: in `target/staticlib` of the repository, where `./staticlib ffi` writes it, or in `lib` of
//! an installation.
//!
//! # Stack
//!
//! A call takes no memory but stack, and what this crate allocates for an answer. [`Fleet::run`], [`list`] and [`grade`]
//! take less than 128 KiB of stack on recordings of the largest size, in either cycle (64 KiB were measured), every other
//! call less than 4 KiB. Threads with stacks of their own should have that much to spare.
//!
//! # A first run
//!
//! ```
//! use rajvokshul::{list, Recorder, Refusal, Round};
//!
//! // Truck 0 opens with crusher 3, truck 1 with crusher 5; both send in the first and the third round.
//! let mut recorder = Recorder::start(&[3, 5])?;
//! for round in 1..=4 {
//!     let nobody = Round::new(2)?;
//!     recorder.step(if round % 2 == 1 { nobody.active(0)?.active(1)? } else { nobody })?;
//! }
//! assert_eq!(
//!     list(&recorder.recording())?,
//!     "trucks 2 rounds 4\n\
//!      0 opened 3 decided 3 round 4 sent 2 vetoes 1\n\
//!      1 opened 5 decided 3 round 4 sent 2 vetoes 1\n\
//!      sent 4 vetoes 2\n"
//! );
//! # Ok::<(), Refusal>(())
//! ```
//!
//! # Later versions
//!
//! [`Refusal`], [`Cycle`], [`RoundKind`] and [`Class`] may get more cases, and [`Truck`], [`Sent`], [`Grades`] and [`Plain`]
//! more fields. So a match on the former has an arm for cases that are not known yet; of a refusal [`Refusal::reason`] has the
//! words then:
//!
//! ```
//! use rajvokshul::Refusal;
//!
//! fn who(refusal: Refusal) -> String {
//!     match refusal {
//!         Refusal::OwnLoss { truck, .. } => format!("ask the driver of truck {truck}"),
//!         Refusal::RoadLists => "ask the office".to_string(),
//!         other => other.reason().to_string(),
//!     }
//! }
//! assert_eq!(who(Refusal::ShortBuffer), "a lent buffer is too short");
//! ```
//!
//! Without it the match is not taken:
//!
//! ```compile_fail,E0004
//! fn rounds(cycle: rajvokshul::Cycle) -> u16 {
//!     match cycle {
//!         rajvokshul::Cycle::TwoRound => 2,
//!         rajvokshul::Cycle::SixRound => 6,
//!     }
//! }
//! ```
//!
//! The structs are answered by calls and not written out. A program that works out by itself what an answer should be starts
//! with [`Truck::opened`], `Sent::default()` or `Grades::default()` and sets fields. [`State`] and [`Heard`] are the whole of
//! what a truck can be and remember, by the bytes of a record, and a match on them is complete.
//!
//! ```compile_fail,E0639
//! let sent = rajvokshul::Sent { proposals: 1, vetoes: 0 };
//! ```

#![deny(missing_docs)]
#![deny(unsafe_op_in_unsafe_fn)]
#![deny(clippy::undocumented_unsafe_blocks)]

mod cycle;
mod fleet;
mod recorder;
mod recording;
mod refusal;
mod roads;
mod round;

pub use cycle::{Cycle, RoundKind};
pub use fleet::{Fleet, Heard, Sent, State, Truck, Trucks, MAX_TRUCKS, RECORD_SIZE};
pub use recorder::Recorder;
pub use recording::{
    grade, grade_in, list, list_into, read, read_into, write, write_into, Class, Grades, Plain,
    MAX_RECORDING, MAX_ROUNDS, MAX_TEXT, MAX_WORDS,
};
pub use refusal::Refusal;
pub use roads::opening;
pub use round::Round;
