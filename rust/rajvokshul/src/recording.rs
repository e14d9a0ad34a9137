//! Recordings: listed, graded, read to plain form and written from it.

use std::fmt;
use std::slice::ChunksExact;

use rajvokshul_sys as sys;

use crate::{Cycle, Refusal, Round, MAX_TRUCKS};

/// The most rounds of a recording, and of a fleet.
pub const MAX_ROUNDS: usize = 400;
/// The bytes of the largest recording.
pub const MAX_RECORDING: usize = 56_018;
/// The words of the largest recording in plain form.
pub const MAX_WORDS: usize = 14_000;
/// No listing has more bytes.
pub const MAX_TEXT: usize = 1_761;

/// What the marks of a round are worth. Running trucks are judged, by the messages sent.
#[derive(Clone, Copy, Debug, PartialEq, Eq, Hash)]
#[non_exhaustive]
pub enum Class {
    /// A truck that misses a message has a mark.
    Complete,
    /// A truck that hears at most half of the messages has a mark.
    Majority,
    /// A truck that hears none of the messages has a mark.
    Zero,
    /// A truck that has a mark missed a message.
    Accurate,
}

impl Class {
    /// The four classes, in the order of a grading; a later version may have more.
    pub const ALL: &'static [Class] =
        &[Class::Complete, Class::Majority, Class::Zero, Class::Accurate];
}

/// For each class of marks the first round that breaks it, or 0. `Grades::default()` breaks none.
///
/// It is proved that no two trucks decide different crushers
///
/// - in the two-round cycle where marks are majority complete in odd rounds and zero complete in even ones. So `majority` 0
///   guarantees agreement, and so does an even `majority` with `zero` 0 where no odd round breaks [`Class::Majority`] later,
///   which these numbers do not tell: each is the first round alone;
/// - in the six-round cycle where marks are zero complete, so wherever `zero` is 0.
///
/// ```
/// use rajvokshul::{grade, Class};
///
/// // Two trucks send and miss each other; neither has a mark.
/// let grades = grade(&[0x08, 0x02, 0x35, 0x31, 0x80, 0x00])?;
/// assert_eq!(grades.first_break(Class::Majority), Some(1));
/// assert_eq!(grades.first_break(Class::Zero), None);
/// # Ok::<(), rajvokshul::Refusal>(())
/// ```
#[derive(Clone, Copy, Debug, Default, PartialEq, Eq, Hash)]
#[non_exhaustive]
pub struct Grades {
    /// The first round that breaks [`Class::Complete`], or 0.
    pub complete: u16,
    /// The first round that breaks [`Class::Majority`], or 0.
    pub majority: u16,
    /// The first round that breaks [`Class::Zero`], or 0.
    pub zero: u16,
    /// The first round that breaks [`Class::Accurate`], or 0.
    pub accurate: u16,
}

impl Grades {
    /// The first round that breaks a class, if one does.
    ///
    /// ```
    /// # use rajvokshul::{grade, Class};
    /// let grades = grade(&[0x08, 0x02, 0x35, 0x31, 0x80, 0x00])?;
    /// assert_eq!(grades.first_break(Class::Complete), Some(1));
    /// assert!(grades.first_break(Class::Zero).is_none());
    /// # Ok::<(), rajvokshul::Refusal>(())
    /// ```
    pub fn first_break(&self, class: Class) -> Option<u16> {
        let round = match class {
            Class::Complete => self.complete,
            Class::Majority => self.majority,
            Class::Zero => self.zero,
            Class::Accurate => self.accurate,
        };
        (round != 0).then_some(round)
    }

    /// The same with another first round that breaks a class, or 0 for none. For programs that work out by themselves what the
    /// grades should be and compare them with those of [`grade`].
    ///
    /// ```
    /// # use rajvokshul::{Class, Grades};
    /// let grades = Grades::default().with_first_break(Class::Complete, 3);
    /// assert_eq!(grades.first_break(Class::Complete), Some(3));
    /// assert!(grades.first_break(Class::Majority).is_none());
    /// ```
    #[must_use = "it answers other grades and leaves these as they are"]
    pub fn with_first_break(mut self, class: Class, round: u16) -> Grades {
        let first = match class {
            Class::Complete => &mut self.complete,
            Class::Majority => &mut self.majority,
            Class::Zero => &mut self.zero,
            Class::Accurate => &mut self.accurate,
        };
        *first = round;
        self
    }
}

/// A recording in plain form. A round is 3 + n words (stop, active, mark, and a row of loss bits for each truck), truck j
/// at the bit worth 2 to the j.
///
/// ```
/// use rajvokshul::{read, Fleet, Refusal};
///
/// let recording = [0x08, 0x04, 0x35, 0x30, 0x00, 0x03, 0x00, 0x00];
/// let plain = read(&recording)?;
/// let mut fleet = Fleet::start(2, &plain.openings)?;
/// for words in plain.rounds() {
///     fleet.step(words)?;
/// }
/// assert_eq!(fleet, Fleet::run(&recording)?);
/// # Ok::<(), Refusal>(())
/// ```
#[derive(Clone, PartialEq, Eq, Hash)]
#[non_exhaustive]
pub struct Plain {
    /// The number of rounds.
    pub rounds: u32,
    /// A byte for each truck.
    pub openings: Vec<u8>,
    /// The words of all rounds one after the other.
    pub words: Vec<u32>,
}

impl Plain {
    /// The words of round `k`, counted from 1. There is none past the last round, nor a round 0.
    ///
    /// ```
    /// # use rajvokshul::{read, Refusal};
    /// let plain = read(&[0x04, 0x02, 0x74, 0x00])?;
    /// assert_eq!(plain.round(1), Some(&[0, 1, 0, 0][..]));
    /// assert_eq!(plain.round(3), None);
    /// # Ok::<(), Refusal>(())
    /// ```
    pub fn round(&self, k: usize) -> Option<&[u32]> {
        let size = 3 + self.openings.len();
        // A product that wraps would answer an early round for a late number.
        let end = k.checked_mul(size)?;
        self.words.get(end.checked_sub(size)?..end)
    }

    /// The words of each round, the first one first. [`Round::try_from`] reads them by trucks.
    ///
    /// ```
    /// # use rajvokshul::{read, Refusal, Round};
    /// let plain = read(&[0x04, 0x02, 0x74, 0x00])?;
    /// let active: Vec<bool> = plain
    ///     .rounds()
    ///     .map(|words| Ok(Round::try_from(words)?.is_active(0)))
    ///     .collect::<Result<_, Refusal>>()?;
    /// assert_eq!(active, [true, false]);
    /// # Ok::<(), Refusal>(())
    /// ```
    pub fn rounds(&self) -> ChunksExact<'_, u32> {
        self.words.chunks_exact(3 + self.openings.len())
    }
}

impl fmt::Debug for Plain {
    /// The openings, and each round by its trucks; the bare words where they are no rounds of so many trucks.
    fn fmt(&self, f: &mut fmt::Formatter<'_>) -> fmt::Result {
        let mut shown = f.debug_struct("Plain");
        shown.field("openings", &self.openings);
        let whole =
            self.rounds().len() == self.rounds as usize && self.rounds().remainder().is_empty();
        match self.rounds().map(Round::try_from).collect::<Result<Vec<Round>, Refusal>>() {
            Ok(rounds) if whole => shown.field("rounds", &rounds),
            _ => shown.field("rounds", &self.rounds).field("words", &self.words),
        };
        shown.finish()
    }
}

/// Runs a recording in the two-round cycle to its listing: the numbers of trucks and rounds, a line for each truck, which ends with how many
/// proposals and vetoes it sent, and a line with how many all of them sent. Refusals: 1 to 6.
///
/// ```
/// let text = rajvokshul::list(&[0x04, 0x02, 0x74, 0x00])?;
/// assert_eq!(text, "trucks 1 rounds 2\n0 opened 7 decided 7 round 2 sent 1 vetoes 0\nsent 1 vetoes 0\n");
/// # Ok::<(), rajvokshul::Refusal>(())
/// ```
pub fn list(recording: &[u8]) -> Result<String, Refusal> {
    let mut text = vec![0; MAX_TEXT];
    let written = list_into(recording, &mut text)?;
    text.truncate(written);
    Ok(String::from_utf8(text).expect("a listing is ASCII"))
}

/// [`list`] into a lent buffer; answers the number of bytes written. Refusals: 1 to 6, 9.
///
/// ```
/// use rajvokshul::{list_into, MAX_TEXT};
///
/// let mut text = [0; MAX_TEXT];
/// let written = list_into(&[0x04, 0x00, 0x70], &mut text)?;
/// assert_eq!(&text[..written], b"trucks 1 rounds 0\n0 opened 7 running 7 sent 0 vetoes 0\nsent 0 vetoes 0\n");
/// # Ok::<(), rajvokshul::Refusal>(())
/// ```
pub fn list_into(recording: &[u8], text: &mut [u8]) -> Result<usize, Refusal> {
    let mut written = 0;
    // SAFETY: the recording is borrowed for reading and the text for writing, so that they do not overlap, and each is valid for
    // its length. What is written to besides is a local.
    let answer = unsafe {
        sys::rajvokshul_list(
            recording.as_ptr(),
            recording.len(),
            text.as_mut_ptr(),
            text.len(),
            &mut written,
        )
    };
    Refusal::check(answer, || own_loss(recording))?;
    Ok(written)
}

/// Where the own loss bit is for which a recording is refused.
pub(crate) fn own_loss(recording: &[u8]) -> u32 {
    // SAFETY: the recording is a slice, valid for reads of its length, and nothing is written.
    unsafe { sys::rajvokshul_recording_own_loss(recording.as_ptr(), recording.len()) }
}

/// Grades the marks of a recording in the two-round cycle. Refusals: 1 to 6.
///
/// ```
/// let grades = rajvokshul::grade(&[0x08, 0x02, 0x35, 0x31, 0x80, 0x00])?;
/// assert_eq!((grades.complete, grades.majority, grades.zero, grades.accurate), (1, 1, 0, 0));
/// # Ok::<(), rajvokshul::Refusal>(())
/// ```
pub fn grade(recording: &[u8]) -> Result<Grades, Refusal> {
    grade_in(Cycle::TwoRound, recording)
}

/// [`grade`] in a cycle.
///
/// ```
/// use rajvokshul::{grade_in, write, Class, Cycle};
///
/// // Trucks of crushers 3 and 5, which are 0011 and 0101, never hear each other. In round 3, for the bit worth 4, truck 1
/// // sends alone, and truck 0 misses that without a mark.
/// let recording = write(2, 6, &[3, 5], &[0, 0b11, 0, 0b10, 0b01].repeat(6))?;
/// let grades = grade_in(Cycle::SixRound, &recording)?;
/// assert_eq!(grades.first_break(Class::Majority), Some(1));
/// assert_eq!(grades.first_break(Class::Zero), Some(3));
/// # Ok::<(), rajvokshul::Refusal>(())
/// ```
pub fn grade_in(cycle: Cycle, recording: &[u8]) -> Result<Grades, Refusal> {
    let grade = match cycle {
        Cycle::TwoRound => sys::rajvokshul_grade,
        Cycle::SixRound => sys::rajvokshul_grade_six,
    };
    let mut grades = [0; 4];
    // SAFETY: the recording is a slice, valid for reads of its length, and the grades are a local, which it does not overlap.
    let answer =
        unsafe { grade(recording.as_ptr(), recording.len(), grades.as_mut_ptr(), grades.len()) };
    Refusal::check(answer, || own_loss(recording))?;
    let [complete, majority, zero, accurate] = grades;
    Ok(Grades { complete, majority, zero, accurate })
}

/// Reads a recording to plain form. Refusals: 1 to 6.
///
/// ```
/// let plain = rajvokshul::read(&[0x04, 0x02, 0x74, 0x00])?;
/// assert_eq!((plain.rounds, plain.openings), (2, vec![7]));
/// assert_eq!(plain.words, [0, 1, 0, 0, 0, 0, 0, 0]);
/// # Ok::<(), rajvokshul::Refusal>(())
/// ```
pub fn read(recording: &[u8]) -> Result<Plain, Refusal> {
    let mut openings = vec![0; MAX_TRUCKS];
    let mut words = vec![0; MAX_WORDS];
    let (trucks, rounds) = read_into(recording, &mut openings, &mut words)?;
    openings.truncate(trucks as usize);
    words.truncate(rounds as usize * (3 + trucks as usize));
    Ok(Plain { rounds, openings, words })
}

/// [`read`] into lent buffers; answers the numbers of trucks and rounds. Longer buffers keep everything past the part
/// written. Refusals: 1 to 6, 9.
///
/// ```
/// let (mut openings, mut words) = ([0; 32], [0; 8]);
/// let read = rajvokshul::read_into(&[0x04, 0x02, 0x74, 0x00], &mut openings, &mut words);
/// assert_eq!(read, Ok((1, 2)));
/// assert_eq!((openings[0], words[1]), (7, 1));
/// ```
pub fn read_into(
    recording: &[u8],
    openings: &mut [u8],
    words: &mut [u32],
) -> Result<(u32, u32), Refusal> {
    let (mut trucks, mut rounds) = (0, 0);
    // SAFETY: the recording is borrowed for reading, the openings and the words each for writing, so that no two overlap, and
    // each is valid for its length. The two numbers are locals.
    let answer = unsafe {
        sys::rajvokshul_read(
            recording.as_ptr(),
            recording.len(),
            openings.as_mut_ptr(),
            openings.len(),
            words.as_mut_ptr(),
            words.len(),
            &mut trucks,
            &mut rounds,
        )
    };
    Refusal::check(answer, || own_loss(recording))?;
    Ok((trucks, rounds))
}

/// Writes a recording from plain form. Refusals: 2, 3, 7, 8, 6.
///
/// ```
/// let recording = rajvokshul::write(1, 2, &[7], &[0, 1, 0, 0, 0, 0, 0, 0])?;
/// assert_eq!(recording, [0x04, 0x02, 0x74, 0x00]);
/// # Ok::<(), rajvokshul::Refusal>(())
/// ```
pub fn write(trucks: u32, rounds: u32, openings: &[u8], words: &[u32]) -> Result<Vec<u8>, Refusal> {
    let mut bytes = vec![0; MAX_RECORDING];
    let written = write_into(trucks, rounds, openings, words, &mut bytes)?;
    bytes.truncate(written);
    Ok(bytes)
}

/// [`write`](fn@write) into a lent buffer; answers the number of bytes written. A longer buffer keeps everything past them.
/// Refusals: 2, 3, 7, 8, 6, 9.
///
/// ```
/// use rajvokshul::{write_into, Refusal};
///
/// let mut bytes = [0; 4];
/// assert_eq!(write_into(1, 2, &[7], &[0, 1, 0, 0, 0, 0, 0, 0], &mut bytes), Ok(4));
/// assert_eq!(write_into(1, 2, &[7], &[0, 1, 0, 0, 0, 0, 0, 0], &mut bytes[..3]), Err(Refusal::ShortBuffer));
/// ```
pub fn write_into(
    trucks: u32,
    rounds: u32,
    openings: &[u8],
    words: &[u32],
    bytes: &mut [u8],
) -> Result<usize, Refusal> {
    let mut written = 0;
    // SAFETY: the openings and the words are borrowed for reading and the bytes for writing, so that these overlap neither, and
    // each is valid for its length. What is written to besides is a local.
    let answer = unsafe {
        sys::rajvokshul_write(
            trucks,
            rounds,
            openings.as_ptr(),
            openings.len(),
            words.as_ptr(),
            words.len(),
            bytes.as_mut_ptr(),
            bytes.len(),
            &mut written,
        )
    };
    Refusal::check(answer, || {
        // SAFETY: the openings and the words are slices, valid for reads of their lengths, and nothing is written.
        unsafe {
            sys::rajvokshul_write_own_loss(
                trucks,
                rounds,
                openings.as_ptr(),
                openings.len(),
                words.as_ptr(),
                words.len(),
            )
        }
    })?;
    Ok(written)
}
