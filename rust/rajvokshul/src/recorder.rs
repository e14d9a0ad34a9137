//! A live fleet that keeps its rounds.

use crate::{write, Cycle, Fleet, Plain, Refusal};

/// A live fleet with the rounds that it has taken, so that there is a recording of them at any time.
///
/// Running that recording in the same cycle leaves the record that the fleet has: this is proved of every list of steps,
/// refused ones included.
///
/// ```
/// use rajvokshul::{list, Fleet, Recorder, Refusal, Round};
///
/// let both = Round::new(2)?.active(0)?.active(1)?;
/// let nobody = Round::new(2)?;
/// let mut recorder = Recorder::start(&[3, 5])?;
/// for round in [&both, &nobody, &both, &nobody] {
///     recorder.step(round)?;
/// }
/// // Words in plain form will do too. A round that is refused is not taken.
/// assert_eq!(recorder.step([0, 0b100, 0, 0, 0]), Err(Refusal::PlainRound));
///
/// let recording = recorder.recording();
/// assert_eq!(recording, [0x08, 0x04, 0x35, 0x30, 0x00, 0x03, 0x00, 0x00]);
/// assert_eq!(recorder.fleet(), &Fleet::run(&recording)?);
/// assert!(list(&recording)?.ends_with("1 opened 5 decided 3 round 4 sent 2 vetoes 1\nsent 4 vetoes 2\n"));
/// # Ok::<(), Refusal>(())
/// ```
#[derive(Clone, Debug, PartialEq, Eq, Hash)]
pub struct Recorder {
    cycle: Cycle,
    plain: Plain,
    fleet: Fleet,
}

impl Recorder {
    /// Starts a fleet with an opening crusher for each truck, which is stepped in the two-round cycle. Refusals: 2, 7.
    ///
    /// ```
    /// # use rajvokshul::{Recorder, Refusal};
    /// assert_eq!(Recorder::start(&[3, 16]), Err(Refusal::Record));
    /// assert_eq!(Recorder::start(&[]), Err(Refusal::TruckCount));
    /// ```
    pub fn start(openings: &[u8]) -> Result<Recorder, Refusal> {
        Recorder::start_in(Cycle::TwoRound, openings)
    }

    /// [`start`](Recorder::start) of a fleet that is stepped in a cycle. Its recording does not say which.
    ///
    /// ```
    /// # use rajvokshul::{Cycle, Fleet, Recorder, Refusal, State};
    /// let mut recorder = Recorder::start_in(Cycle::SixRound, &[7])?;
    /// for _ in 1..=6 {
    ///     recorder.step([0; 4])?;
    /// }
    /// assert_eq!(recorder.fleet().truck(0).unwrap().state, State::Decided(6));
    /// assert_eq!(&Fleet::run_in(Cycle::SixRound, &recorder.recording())?, recorder.fleet());
    /// # Ok::<(), Refusal>(())
    /// ```
    pub fn start_in(cycle: Cycle, openings: &[u8]) -> Result<Recorder, Refusal> {
        // More than 32 bits hold are more than 32 trucks, too.
        let trucks = u32::try_from(openings.len()).unwrap_or(u32::MAX);
        let fleet = Fleet::start(trucks, openings)?;
        let plain = Plain { rounds: 0, openings: openings.to_vec(), words: Vec::new() };
        Ok(Recorder { cycle, plain, fleet })
    }

    /// The cycle in which the fleet is stepped.
    ///
    /// ```
    /// # use rajvokshul::{Cycle, Recorder, Refusal};
    /// assert_eq!(Recorder::start(&[7])?.cycle(), Cycle::TwoRound);
    /// assert_eq!(Recorder::start_in(Cycle::SixRound, &[7])?.cycle(), Cycle::SixRound);
    /// # Ok::<(), Refusal>(())
    /// ```
    pub fn cycle(&self) -> Cycle {
        self.cycle
    }

    /// Steps the fleet by a round of its cycle, or by the round's words in plain form, and keeps it. A refused step changes
    /// nothing. Refusals: 14, 8, 6.
    ///
    /// ```
    /// # use rajvokshul::{Recorder, Refusal, Round};
    /// let mut recorder = Recorder::start(&[7])?;
    /// let fleet = recorder.step(Round::new(1)?.active(0)?)?;
    /// assert_eq!(fleet.rounds_done(), 1);
    /// # Ok::<(), Refusal>(())
    /// ```
    pub fn step(&mut self, round: impl AsRef<[u32]>) -> Result<&Fleet, Refusal> {
        let words = round.as_ref();
        self.fleet.step_in(self.cycle, words)?;
        self.plain.words.extend_from_slice(words);
        self.plain.rounds += 1;
        Ok(&self.fleet)
    }

    /// The fleet after the rounds taken.
    ///
    /// ```
    /// # use rajvokshul::{Recorder, Refusal};
    /// assert_eq!(Recorder::start(&[7])?.fleet().truck(0).unwrap().estimate, 7);
    /// # Ok::<(), Refusal>(())
    /// ```
    pub fn fleet(&self) -> &Fleet {
        &self.fleet
    }

    /// The openings and the rounds taken, in plain form.
    ///
    /// ```
    /// # use rajvokshul::{Recorder, Refusal};
    /// let mut recorder = Recorder::start(&[7])?;
    /// recorder.step([0, 1, 0, 0])?;
    /// assert_eq!(recorder.plain().rounds().collect::<Vec<_>>(), [[0, 1, 0, 0]]);
    /// # Ok::<(), Refusal>(())
    /// ```
    pub fn plain(&self) -> &Plain {
        &self.plain
    }

    /// The recording of the openings and the rounds taken, as bytes.
    ///
    /// ```
    /// # use rajvokshul::{Recorder, Refusal};
    /// assert_eq!(Recorder::start(&[3, 5])?.recording(), [0x08, 0x00, 0x35]);
    /// # Ok::<(), Refusal>(())
    /// ```
    pub fn recording(&self) -> Vec<u8> {
        let Plain { rounds, openings, words } = &self.plain;
        // The numbers fit: at most 32 trucks are started, and at most 400 rounds are taken.
        let recording = write(openings.len() as u32, *rounds, openings, words);
        recording.expect("rounds that were taken can be written")
    }
}
