//! One round, built and read by naming trucks.

use std::fmt;

use crate::{write_into, Refusal, MAX_TRUCKS};

/// The words before the rows of loss bits: stop, active, mark.
const FRONT: usize = 3;
const STOP: usize = 0;
const ACTIVE: usize = 1;
const MARK: usize = 2;

/// One round of a fleet of 1 to 32 trucks, built by naming trucks. They are counted from 0.
///
/// A round keeps its bits in plain form, and what it holds is always taken: neither 8 nor 6 holds of it. A truck that is
/// not there is refused with 8 and a truck that would miss itself with 6, as a step would refuse such a round. A round
/// stands alone here, so that 6 names it as round 1. Bits that the rules do not look at, such as a decided truck's, are
/// kept like all others.
///
/// ```
/// use rajvokshul::{Fleet, Refusal, Round};
///
/// // Trucks 0 and 1 send, truck 0 does not hear truck 1 and has a mark.
/// let round = Round::new(3)?.active(0)?.active(1)?.lost(0, 1)?.marked(0)?;
/// assert_eq!(round.words(), [0, 0b011, 0b001, 0b010, 0, 0]);
/// assert!(round.is_active(1) && !round.is_active(2));
///
/// let mut fleet = Fleet::start(3, &[4, 9, 4])?;
/// fleet.step(&round)?;
/// assert!(fleet.truck(0).unwrap().mark);
///
/// assert_eq!(Round::new(3)?.active(3), Err(Refusal::PlainRound));
/// assert_eq!(Round::new(3)?.lost(1, 1), Err(Refusal::OwnLoss { round: 1, truck: 1 }));
/// # Ok::<(), Refusal>(())
/// ```
#[derive(Clone, PartialEq, Eq, Hash)]
#[must_use = "each call answers the round with one bit more"]
pub struct Round {
    words: Vec<u32>,
}

impl Round {
    /// A round in which nobody stops, is active, has a mark or misses anything. Refusal: 2.
    ///
    /// ```
    /// # use rajvokshul::{Refusal, Round};
    /// assert_eq!(Round::new(2)?.words(), [0; 5]);
    /// assert_eq!(Round::new(33), Err(Refusal::TruckCount));
    /// # Ok::<(), Refusal>(())
    /// ```
    pub fn new(trucks: usize) -> Result<Round, Refusal> {
        if trucks == 0 || trucks > MAX_TRUCKS {
            return Err(Refusal::TruckCount);
        }
        Ok(Round { words: vec![0; FRONT + trucks] })
    }

    /// With the stop bit of a truck: if it is running, it stops at the start of the round. Refusal: 8.
    ///
    /// ```
    /// # use rajvokshul::{Refusal, Round};
    /// assert!(Round::new(2)?.stopped(1)?.is_stopped(1));
    /// # Ok::<(), Refusal>(())
    /// ```
    pub fn stopped(self, truck: usize) -> Result<Round, Refusal> {
        self.with(STOP, truck)
    }

    /// With the active bit of a truck: if it is running and the round is for proposals, or prepare in the six-round cycle, it
    /// sends its estimate. Refusal: 8.
    ///
    /// ```
    /// # use rajvokshul::{Refusal, Round};
    /// assert!(Round::new(2)?.active(1)?.is_active(1));
    /// # Ok::<(), Refusal>(())
    /// ```
    pub fn active(self, truck: usize) -> Result<Round, Refusal> {
        self.with(ACTIVE, truck)
    }

    /// With the mark bit of a truck: its radio reports a collision. Refusal: 8.
    ///
    /// ```
    /// # use rajvokshul::{Refusal, Round};
    /// assert!(Round::new(2)?.marked(1)?.is_marked(1));
    /// # Ok::<(), Refusal>(())
    /// ```
    pub fn marked(self, truck: usize) -> Result<Round, Refusal> {
        self.with(MARK, truck)
    }

    /// With a loss bit: `truck` does not hear what `sender` sends. Refusals: 8, 6.
    ///
    /// ```
    /// # use rajvokshul::{Refusal, Round};
    /// let round = Round::new(2)?.lost(0, 1)?;
    /// assert!(round.is_lost(0, 1) && !round.is_lost(1, 0));
    /// # Ok::<(), Refusal>(())
    /// ```
    pub fn lost(self, truck: usize, sender: usize) -> Result<Round, Refusal> {
        if truck >= self.trucks() || sender >= self.trucks() {
            return Err(Refusal::PlainRound);
        }
        if truck == sender {
            // Below 32, as every truck that is there.
            return Err(Refusal::OwnLoss { round: 1, truck: truck as u8 });
        }
        self.with(FRONT + truck, sender)
    }

    /// The number of trucks.
    ///
    /// ```
    /// # use rajvokshul::{Refusal, Round};
    /// assert_eq!(Round::new(2)?.trucks(), 2);
    /// # Ok::<(), Refusal>(())
    /// ```
    pub fn trucks(&self) -> usize {
        self.words.len() - FRONT
    }

    /// Whether a truck's stop bit is set; of a truck that is not there it is not.
    ///
    /// ```
    /// # use rajvokshul::{Refusal, Round};
    /// let round = Round::new(2)?.stopped(0)?;
    /// assert_eq!([0, 1, 2].map(|truck| round.is_stopped(truck)), [true, false, false]);
    /// # Ok::<(), Refusal>(())
    /// ```
    pub fn is_stopped(&self, truck: usize) -> bool {
        self.has(STOP, truck)
    }

    /// Whether a truck's active bit is set; of a truck that is not there it is not.
    ///
    /// ```
    /// # use rajvokshul::{Refusal, Round};
    /// let round = Round::new(2)?.active(0)?;
    /// assert_eq!([0, 1, 2].map(|truck| round.is_active(truck)), [true, false, false]);
    /// # Ok::<(), Refusal>(())
    /// ```
    pub fn is_active(&self, truck: usize) -> bool {
        self.has(ACTIVE, truck)
    }

    /// Whether a truck's mark bit is set; of a truck that is not there it is not.
    ///
    /// ```
    /// # use rajvokshul::{Refusal, Round};
    /// let round = Round::new(2)?.marked(0)?;
    /// assert_eq!([0, 1, 2].map(|truck| round.is_marked(truck)), [true, false, false]);
    /// # Ok::<(), Refusal>(())
    /// ```
    pub fn is_marked(&self, truck: usize) -> bool {
        self.has(MARK, truck)
    }

    /// Whether `truck` misses what `sender` sends; of trucks that are not there it does not.
    ///
    /// ```
    /// # use rajvokshul::{Refusal, Round};
    /// let round = Round::new(3)?.lost(0, 2)?;
    /// assert_eq!([1, 2, 3].map(|sender| round.is_lost(0, sender)), [false, true, false]);
    /// # Ok::<(), Refusal>(())
    /// ```
    pub fn is_lost(&self, truck: usize, sender: usize) -> bool {
        truck < self.trucks() && self.has(FRONT + truck, sender)
    }

    /// The round in plain form: 3 + n words, which are stop, active, mark, and a row of loss bits for each truck; truck j
    /// at the bit worth 2 to the j.
    ///
    /// ```
    /// # use rajvokshul::{Refusal, Round};
    /// assert_eq!(Round::new(2)?.active(0)?.active(1)?.words(), [0, 0b11, 0, 0, 0]);
    /// # Ok::<(), Refusal>(())
    /// ```
    pub fn words(&self) -> &[u32] {
        &self.words
    }

    fn with(mut self, word: usize, truck: usize) -> Result<Round, Refusal> {
        if truck >= self.trucks() {
            return Err(Refusal::PlainRound);
        }
        self.words[word] |= 1 << truck;
        Ok(self)
    }

    fn has(&self, word: usize, truck: usize) -> bool {
        truck < self.trucks() && self.words[word] >> truck & 1 == 1
    }

    /// The trucks with a bit in a word.
    fn named(&self, word: usize) -> Trucks {
        Trucks((0..self.trucks()).filter(|&truck| self.has(word, truck)).collect())
    }
}

impl TryFrom<&[u32]> for Round {
    type Error = Refusal;

    /// The round that words in plain form are, of as many trucks as there are words after the first three. Refusals: 8, 6.
    ///
    /// The proved library judges them: it is asked to write one such round into a buffer of no bytes, which it refuses
    /// with 9 only after it has found nothing else to refuse.
    ///
    /// ```
    /// use rajvokshul::{read, Refusal, Round};
    ///
    /// let plain = read(&[0x08, 0x04, 0x35, 0x30, 0x00, 0x03, 0x00, 0x00])?;
    /// let first = Round::try_from(plain.round(1).unwrap())?;
    /// assert_eq!(first, Round::new(2)?.active(0)?.active(1)?);
    /// assert_eq!(Round::try_from(&[0, 0b100, 0, 0, 0][..]), Err(Refusal::PlainRound));
    /// # Ok::<(), Refusal>(())
    /// ```
    fn try_from(words: &[u32]) -> Result<Round, Refusal> {
        let trucks =
            words.len().checked_sub(FRONT).filter(|&trucks| 0 < trucks && trucks <= MAX_TRUCKS);
        let trucks = trucks.ok_or(Refusal::PlainRound)?;
        match write_into(trucks as u32, 1, &[0; MAX_TRUCKS][..trucks], words, &mut []) {
            Err(Refusal::ShortBuffer) => Ok(Round { words: words.to_vec() }),
            Err(refusal) => Err(refusal),
            Ok(_) => unreachable!("a recording has bytes"),
        }
    }
}

impl AsRef<[u32]> for Round {
    fn as_ref(&self) -> &[u32] {
        &self.words
    }
}

impl fmt::Debug for Round {
    /// The trucks by their numbers, and of those that miss something whom they miss.
    ///
    /// ```
    /// # use rajvokshul::{Refusal, Round};
    /// let round = Round::new(3)?.active(0)?.active(2)?.lost(1, 2)?;
    /// assert_eq!(format!("{round:?}"), "Round { trucks: 3, stopped: {}, active: {0, 2}, marked: {}, lost: {1: {2}} }");
    /// # Ok::<(), Refusal>(())
    /// ```
    fn fmt(&self, f: &mut fmt::Formatter<'_>) -> fmt::Result {
        f.debug_struct("Round")
            .field("trucks", &self.trucks())
            .field("stopped", &self.named(STOP))
            .field("active", &self.named(ACTIVE))
            .field("marked", &self.named(MARK))
            .field("lost", &Losses(self))
            .finish()
    }
}

/// Numbers of trucks, printed on one line.
struct Trucks(Vec<usize>);

impl fmt::Debug for Trucks {
    fn fmt(&self, f: &mut fmt::Formatter<'_>) -> fmt::Result {
        let numbers: Vec<String> = self.0.iter().map(usize::to_string).collect();
        write!(f, "{{{}}}", numbers.join(", "))
    }
}

/// The rows of a round that are not empty.
struct Losses<'a>(&'a Round);

impl fmt::Debug for Losses<'_> {
    fn fmt(&self, f: &mut fmt::Formatter<'_>) -> fmt::Result {
        let rows = (0..self.0.trucks()).map(|truck| (truck, self.0.named(FRONT + truck)));
        f.debug_map().entries(rows.filter(|(_, lost)| !lost.0.is_empty())).finish()
    }
}
