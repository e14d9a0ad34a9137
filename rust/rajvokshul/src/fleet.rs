//! A live fleet, kept as the library's 323 bytes.

use std::fmt;

use rajvokshul_sys as sys;

use crate::recording::own_loss;
use crate::{Cycle, Refusal};

/// The most trucks of a fleet.
pub const MAX_TRUCKS: usize = 32;
/// The bytes of one truck's place in a fleet record.
const PLACE_SIZE: usize = 10;
/// The bytes of a fleet record.
pub const RECORD_SIZE: usize = 3 + PLACE_SIZE * MAX_TRUCKS;

/// How many different values a truck heard in the proposal round before.
#[derive(Clone, Copy, Debug, PartialEq, Eq, Hash)]
pub enum Heard {
    /// No value.
    Nothing,
    /// One value, from one truck or several.
    One,
    /// Several different values.
    Several,
}

/// A truck is running, stopped or decided; the number is the round of the stop or the decision.
#[derive(Clone, Copy, Debug, PartialEq, Eq, Hash)]
pub enum State {
    /// It takes part.
    Running,
    /// It stopped at the start of this round.
    Stopped(u16),
    /// It decided its estimate at the end of this round.
    Decided(u16),
}

/// How many messages a truck has sent in the two-round cycle; the six-round one counts none. A truck sends at most one in a
/// round, so that each count is at most 200. `Sent::default()` is that of a truck that has sent nothing.
#[derive(Clone, Copy, Debug, Default, PartialEq, Eq, Hash)]
#[non_exhaustive]
pub struct Sent {
    /// Proposals: the odd rounds in which it sent.
    pub proposals: u8,
    /// Vetoes: the even rounds in which it sent.
    pub vetoes: u8,
}

/// One truck of a fleet. What it heard and sent belongs to the two-round cycle, willingness to the six-round one: a step of
/// either cycle neither reads nor changes what belongs to the other.
#[derive(Clone, Copy, Debug, PartialEq, Eq, Hash)]
#[non_exhaustive]
pub struct Truck {
    /// The crusher that it opened with.
    pub opening: u8,
    /// Its present estimate; of a decided truck the crusher that it decided.
    pub estimate: u8,
    /// Whether it had a mark in the proposal round before.
    pub mark: bool,
    /// What it heard in the proposal round before.
    pub heard: Heard,
    /// Whether it is unwilling to decide in this cycle of six rounds: it vetoes in accept.
    pub unwilling: bool,
    /// Whether it is running, stopped or decided.
    pub state: State,
    /// How much it has sent; what a stopped or a decided truck had sent before.
    pub sent: Sent,
}

impl Truck {
    /// A truck of a fleet that starts: it runs, is willing, remembers nothing and has sent nothing. For programs that work out
    /// by themselves what a truck should be and compare it with the one of a [`Fleet`].
    ///
    /// ```
    /// # use rajvokshul::{Fleet, Refusal, Truck};
    /// let fleet = Fleet::start(2, &[3, 5])?;
    /// assert_eq!(fleet.truck(1), Some(Truck::opened(5)));
    /// # Ok::<(), Refusal>(())
    /// ```
    pub fn opened(opening: u8) -> Truck {
        Truck {
            opening,
            estimate: opening,
            mark: false,
            heard: Heard::Nothing,
            unwilling: false,
            state: State::Running,
            sent: Sent::default(),
        }
    }
}

/// A fleet of 1 to 32 trucks with 0 to 400 rounds done.
///
/// ```
/// use rajvokshul::{Fleet, State};
///
/// let mut fleet = Fleet::start(2, &[3, 5])?;
/// // A round in plain form: stop, active, mark, then what each truck missed.
/// fleet.step([0, 0b11, 0, 0, 0])?;
/// fleet.step([0, 0, 0, 0, 0])?;
/// assert_eq!(fleet.rounds_done(), 2);
/// assert_eq!(fleet.truck(1).unwrap().estimate, 3);
/// for truck in &fleet {
///     assert_eq!(truck.state, State::Running);
///     // Both heard two values in round 1, so that both sent a veto in round 2.
///     assert_eq!((truck.sent.proposals, truck.sent.vetoes), (1, 1));
/// }
/// # Ok::<(), rajvokshul::Refusal>(())
/// ```
///
/// Two fleets are equal where all their bytes are, also those of places without a truck. A start and a run leave 0 there.
#[derive(Clone, PartialEq, Eq, Hash)]
pub struct Fleet {
    bytes: [u8; RECORD_SIZE],
}

impl Fleet {
    /// Starts a fleet of `trucks` trucks, each with its opening crusher. Refusals: 2, 7.
    ///
    /// ```
    /// # use rajvokshul::{Fleet, Refusal};
    /// assert_eq!(Fleet::start(2, &[3, 5])?.trucks(), 2);
    /// assert_eq!(Fleet::start(33, &[3; 33]), Err(Refusal::TruckCount));
    /// assert_eq!(Fleet::start(2, &[3]), Err(Refusal::Record));
    /// # Ok::<(), Refusal>(())
    /// ```
    pub fn start(trucks: u32, openings: &[u8]) -> Result<Fleet, Refusal> {
        let mut bytes = [0; RECORD_SIZE];
        // SAFETY: the openings are a slice, valid for reads of its length, and the record is a local, which they do not overlap.
        let answer = unsafe {
            sys::rajvokshul_start(
                trucks,
                openings.as_ptr(),
                openings.len(),
                bytes.as_mut_ptr(),
                bytes.len(),
            )
        };
        Refusal::check_bare(answer)?;
        Ok(Fleet { bytes })
    }

    /// Steps the fleet by one round of the two-round cycle: a [`Round`](crate::Round), or its 3 + n words in plain form. A
    /// refused step changes nothing. Refusals: 7, 14, 8, 6; 7 only where the fleet was made
    /// [`from_bytes`](Fleet::from_bytes) or stepped in the other cycle.
    ///
    /// ```
    /// # use rajvokshul::{Fleet, Refusal, Round, State};
    /// let mut fleet = Fleet::start(1, &[7])?;
    /// fleet.step(Round::new(1)?.active(0)?)?;
    /// fleet.step([0, 0, 0, 0])?;
    /// assert_eq!(fleet.truck(0).unwrap().state, State::Decided(2));
    /// // It would have been round 3.
    /// assert_eq!(fleet.step([0, 0, 0, 1]), Err(Refusal::OwnLoss { round: 3, truck: 0 }));
    /// # Ok::<(), Refusal>(())
    /// ```
    pub fn step(&mut self, round: impl AsRef<[u32]>) -> Result<(), Refusal> {
        self.step_in(Cycle::TwoRound, round)
    }

    /// [`step`](Fleet::step) in a cycle. A fleet may be stepped in one cycle and then in the other, but what is promised of
    /// whole lists of steps holds of those in one cycle, and 7 by the one cycle may refuse what the other left.
    ///
    /// ```
    /// # use rajvokshul::{Cycle, Fleet, Refusal, Round};
    /// // 3 is 0011 and 5 is 0101. Nobody is active in prepare; in round 3, for the bit worth 4, truck 0 hears truck 1.
    /// let mut fleet = Fleet::start(2, &[3, 5])?;
    /// for _ in 1..=3 {
    ///     fleet.step_in(Cycle::SixRound, Round::new(2)?)?;
    /// }
    /// let unwilling: Vec<bool> = fleet.iter().map(|truck| truck.unwilling).collect();
    /// assert_eq!(unwilling, [true, false]);
    /// # Ok::<(), Refusal>(())
    /// ```
    pub fn step_in(&mut self, cycle: Cycle, round: impl AsRef<[u32]>) -> Result<(), Refusal> {
        let words = round.as_ref();
        let step = match cycle {
            Cycle::TwoRound => sys::rajvokshul_step,
            Cycle::SixRound => sys::rajvokshul_step_six,
        };
        // SAFETY: the record is borrowed for writing and the words for reading, so that they do not overlap, and each is valid
        // for its length.
        let answer =
            unsafe { step(self.bytes.as_mut_ptr(), self.bytes.len(), words.as_ptr(), words.len()) };
        Refusal::check(answer, || {
            let round = u32::from(self.rounds_done()) + 1;
            // SAFETY: the words are a slice, valid for reads of its length, and nothing is written.
            unsafe {
                sys::rajvokshul_round_own_loss(
                    u32::from(self.trucks()),
                    round,
                    words.as_ptr(),
                    words.len(),
                )
            }
        })
    }

    /// Runs a recording in the two-round cycle, all its rounds. Refusals: 1 to 6.
    ///
    /// ```
    /// # use rajvokshul::{Fleet, Refusal, State};
    /// let fleet = Fleet::run(&[0x08, 0x04, 0x35, 0x30, 0x00, 0x03, 0x00, 0x00])?;
    /// assert_eq!(fleet.truck(1).unwrap().state, State::Decided(4));
    /// # Ok::<(), Refusal>(())
    /// ```
    pub fn run(recording: &[u8]) -> Result<Fleet, Refusal> {
        Fleet::run_in(Cycle::TwoRound, recording)
    }

    /// [`run`](Fleet::run) in a cycle.
    ///
    /// ```
    /// # use rajvokshul::{Cycle, Fleet, Refusal, State};
    /// // One truck, which opens with crusher 7 and is never active, in six rounds: nobody speaks against it.
    /// let fleet = Fleet::run_in(Cycle::SixRound, &[0x04, 0x06, 0x70, 0x00, 0x00, 0x00])?;
    /// assert_eq!(fleet.truck(0).unwrap().state, State::Decided(6));
    /// # Ok::<(), Refusal>(())
    /// ```
    pub fn run_in(cycle: Cycle, recording: &[u8]) -> Result<Fleet, Refusal> {
        let run = match cycle {
            Cycle::TwoRound => sys::rajvokshul_run,
            Cycle::SixRound => sys::rajvokshul_run_six,
        };
        let mut bytes = [0; RECORD_SIZE];
        // SAFETY: the recording is a slice, valid for reads of its length, and the record is a local, which it does not overlap.
        let answer =
            unsafe { run(recording.as_ptr(), recording.len(), bytes.as_mut_ptr(), bytes.len()) };
        Refusal::check(answer, || own_loss(recording))?;
        Ok(Fleet { bytes })
    }

    /// A record that was kept as bytes, not judged until the fleet is stepped: bytes that are no record, or one outside
    /// the limits, are then refused with 7. [`from_bytes_in`](Fleet::from_bytes_in) judges them at once, and so does
    /// `Fleet::try_from(bytes)`, by the two-round cycle.
    ///
    /// ```
    /// # use rajvokshul::{Fleet, Refusal};
    /// let kept = *Fleet::start(2, &[3, 5])?.as_bytes();
    /// assert_eq!(Fleet::from_bytes(kept).trucks(), 2);
    /// assert_eq!(Fleet::from_bytes([0xff; 323]).step([0; 5]), Err(Refusal::Record));
    /// # Ok::<(), Refusal>(())
    /// ```
    pub fn from_bytes(bytes: [u8; RECORD_SIZE]) -> Fleet {
        Fleet { bytes }
    }

    /// A record that was kept as bytes, judged as a step in a cycle would judge it. Refusal: 7.
    ///
    /// In both cycles that is n of 0 or above 32, a crusher above 15, more than 400 rounds done, or a stop or a decision in round
    /// 0 or in a later round than those done. Besides, in two rounds: a decision in an odd round; a mark or something heard where
    /// the rounds done are even or the truck isn't running; more proposals than odd rounds done, or more vetoes than even ones.
    /// In six rounds: a decision in a round that is no multiple of 6; an unwilling truck that isn't running, or where fewer than
    /// two rounds of the cycle are done.
    ///
    /// The proved library judges: it is asked for a step without any words. A step looks for 7 first; to a record that
    /// passes it then answers 14 or 8, since no round has 0 words, and it changes nothing.
    ///
    /// ```
    /// # use rajvokshul::{Cycle, Fleet, Refusal};
    /// // A mark makes the truck unwilling in round 2 of six. Then it is stepped in two rounds, which do not look at that. With
    /// // five rounds done it may be unwilling, with six done it may not.
    /// let mut fleet = Fleet::start(1, &[7])?;
    /// fleet.step_in(Cycle::SixRound, [0, 0, 0, 0])?;
    /// fleet.step_in(Cycle::SixRound, [0, 0, 1, 0])?;
    /// for _ in 3..=5 {
    ///     fleet.step([0; 4])?;
    /// }
    /// assert_eq!(Fleet::from_bytes_in(Cycle::SixRound, *fleet.as_bytes()), Ok(fleet.clone()));
    /// fleet.step([0; 4])?;
    /// assert_eq!(Fleet::from_bytes_in(Cycle::TwoRound, *fleet.as_bytes()), Ok(fleet.clone()));
    /// assert_eq!(Fleet::from_bytes_in(Cycle::SixRound, *fleet.as_bytes()), Err(Refusal::Record));
    /// # Ok::<(), Refusal>(())
    /// ```
    pub fn from_bytes_in(cycle: Cycle, bytes: [u8; RECORD_SIZE]) -> Result<Fleet, Refusal> {
        let mut fleet = Fleet { bytes };
        match fleet.step_in(cycle, []) {
            Err(Refusal::Record) => Err(Refusal::Record),
            _ => Ok(fleet),
        }
    }

    /// The record as bytes: n; the rounds done, low byte first; then ten bytes for each of 32 places, which are opening,
    /// estimate, mark (0 or 1), what was heard (0 to 2 as in [`Heard`]), state (0 to 2 as in [`State`]), the round of the
    /// stop or the decision, low byte first, the numbers of proposals and of vetoes sent, and 1 where the truck is unwilling,
    /// else 0.
    ///
    /// ```
    /// # use rajvokshul::{Fleet, Refusal};
    /// let fleet = Fleet::start(2, &[3, 5])?;
    /// assert_eq!(fleet.as_bytes()[..13], [2, 0, 0, 3, 3, 0, 0, 0, 0, 0, 0, 0, 0]);
    /// assert_eq!(Fleet::try_from(*fleet.as_bytes())?, fleet);
    /// # Ok::<(), Refusal>(())
    /// ```
    pub fn as_bytes(&self) -> &[u8; RECORD_SIZE] {
        &self.bytes
    }

    /// The number of trucks.
    ///
    /// ```
    /// # use rajvokshul::{Fleet, Refusal};
    /// assert_eq!(Fleet::start(2, &[3, 5])?.trucks(), 2);
    /// # Ok::<(), Refusal>(())
    /// ```
    pub fn trucks(&self) -> u8 {
        self.bytes[0]
    }

    /// The number of rounds taken.
    ///
    /// ```
    /// # use rajvokshul::{Fleet, Refusal};
    /// assert_eq!(Fleet::start(2, &[3, 5])?.rounds_done(), 0);
    /// # Ok::<(), Refusal>(())
    /// ```
    pub fn rounds_done(&self) -> u16 {
        u16::from_le_bytes([self.bytes[1], self.bytes[2]])
    }

    /// The trucks, lowest number first. Of a record that nobody has judged, those before the first place that holds none.
    ///
    /// ```
    /// # use rajvokshul::{Fleet, Refusal};
    /// let fleet = Fleet::start(2, &[3, 5])?;
    /// let openings: Vec<u8> = fleet.iter().map(|truck| truck.opening).collect();
    /// assert_eq!(openings, [3, 5]);
    /// # Ok::<(), Refusal>(())
    /// ```
    pub fn iter(&self) -> Trucks<'_> {
        Trucks { fleet: self, next: 0 }
    }

    /// Truck `i`, counted from 0. There is none from the number of trucks on, nor where the bytes are those of no truck.
    ///
    /// ```
    /// # use rajvokshul::{Fleet, Refusal};
    /// let fleet = Fleet::start(2, &[3, 5])?;
    /// assert_eq!(fleet.truck(1).map(|truck| truck.opening), Some(5));
    /// assert_eq!(fleet.truck(2), None);
    /// # Ok::<(), Refusal>(())
    /// ```
    pub fn truck(&self, i: usize) -> Option<Truck> {
        if i >= usize::from(self.trucks()) {
            return None;
        }
        let place = self.bytes[3..].chunks_exact(PLACE_SIZE).nth(i)?;
        let &[opening, estimate, mark, heard, state, low, high, proposals, vetoes, unwilling] =
            place
        else {
            return None;
        };
        let flag = |byte| match byte {
            0 => Some(false),
            1 => Some(true),
            _ => None,
        };
        let round = u16::from_le_bytes([low, high]);
        Some(Truck {
            opening,
            estimate,
            mark: flag(mark)?,
            heard: match heard {
                0 => Heard::Nothing,
                1 => Heard::One,
                2 => Heard::Several,
                _ => return None,
            },
            unwilling: flag(unwilling)?,
            state: match (state, round) {
                (0, 0) => State::Running,
                (1, _) => State::Stopped(round),
                (2, _) => State::Decided(round),
                _ => return None,
            },
            sent: Sent { proposals, vetoes },
        })
    }
}

impl TryFrom<[u8; RECORD_SIZE]> for Fleet {
    type Error = Refusal;

    /// A record that was kept as bytes, judged as a step in the two-round cycle would judge it, by
    /// [`Fleet::from_bytes_in`]. Refusal: 7.
    ///
    /// ```
    /// # use rajvokshul::{Fleet, Refusal};
    /// let mut kept = *Fleet::start(2, &[3, 5])?.as_bytes();
    /// assert!(Fleet::try_from(kept).is_ok());
    /// kept[3] = 16;
    /// assert_eq!(Fleet::try_from(kept), Err(Refusal::Record));
    /// # Ok::<(), Refusal>(())
    /// ```
    fn try_from(bytes: [u8; RECORD_SIZE]) -> Result<Fleet, Refusal> {
        Fleet::from_bytes_in(Cycle::TwoRound, bytes)
    }
}

impl TryFrom<&[u8]> for Fleet {
    type Error = Refusal;

    /// The same of a slice, which has to have 323 bytes. Refusal: 7.
    ///
    /// ```
    /// # use rajvokshul::{Fleet, Refusal};
    /// let fleet = Fleet::start(2, &[3, 5])?;
    /// assert_eq!(Fleet::try_from(&fleet.as_bytes()[..]), Ok(fleet));
    /// assert_eq!(Fleet::try_from(&[2, 0, 0][..]), Err(Refusal::Record));
    /// # Ok::<(), Refusal>(())
    /// ```
    fn try_from(bytes: &[u8]) -> Result<Fleet, Refusal> {
        <[u8; RECORD_SIZE]>::try_from(bytes).map_err(|_| Refusal::Record)?.try_into()
    }
}

impl fmt::Debug for Fleet {
    /// The rounds done and the trucks, not the bytes.
    fn fmt(&self, f: &mut fmt::Formatter<'_>) -> fmt::Result {
        let trucks: Vec<Option<Truck>> =
            (0..usize::from(self.trucks())).map(|i| self.truck(i)).collect();
        let mut shown = f.debug_struct("Fleet");
        shown.field("rounds_done", &self.rounds_done());
        match trucks.iter().copied().collect::<Option<Vec<Truck>>>() {
            Some(trucks) => shown.field("trucks", &trucks),
            None => shown.field("trucks", &trucks),
        };
        shown.finish()
    }
}

impl<'a> IntoIterator for &'a Fleet {
    type Item = Truck;
    type IntoIter = Trucks<'a>;

    fn into_iter(self) -> Trucks<'a> {
        self.iter()
    }
}

/// The trucks of a fleet, lowest number first; [`Fleet::iter`] makes it.
#[derive(Clone, Debug)]
pub struct Trucks<'a> {
    fleet: &'a Fleet,
    next: usize,
}

impl Iterator for Trucks<'_> {
    type Item = Truck;

    fn next(&mut self) -> Option<Truck> {
        let truck = self.fleet.truck(self.next)?;
        self.next += 1;
        Some(truck)
    }

    fn size_hint(&self) -> (usize, Option<usize>) {
        (0, Some(usize::from(self.fleet.trucks()).saturating_sub(self.next)))
    }
}

impl std::iter::FusedIterator for Trucks<'_> {}
