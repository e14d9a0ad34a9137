//! Why an input is refused.

use std::fmt;

/// Why an input is refused. [`Refusal::number`] is the number of the scope paper.
///
/// A later version may refuse for more reasons, so that a match on it has an arm for others. [`Refusal::reason`] and `to_string`
/// have words for each.
#[derive(Clone, Copy, Debug, PartialEq, Eq, Hash)]
#[non_exhaustive]
pub enum Refusal {
    /// A recording of fewer than 2 bytes.
    ShortRecording,
    /// The number of trucks is 0 or above 32.
    TruckCount,
    /// More than 400 rounds.
    RoundCount,
    /// The byte length differs from the one that the two counts fix.
    RecordingLength,
    /// A leftover end bit is 1.
    EndBit,
    /// A truck's own loss bit is 1. Of several such bits it names the one of the earliest round and, in that round, of the
    /// lowest truck.
    OwnLoss {
        /// The round, counted from 1. Of a refused step it is the round that it would have been, one more than the rounds
        /// done; of a [`Round`](crate::Round) that stands alone it is 1.
        round: u16,
        /// The truck, counted from 0.
        truck: u8,
    },
    /// A fleet record outside the limits, an opening above 15, or openings of another number than the trucks.
    Record,
    /// Plain rounds of the wrong number of words, or a bit of a truck that isn't there.
    PlainRound,
    /// A lent buffer is too short.
    ShortBuffer,
    /// No roads, more than 16, or lists of unequal length.
    RoadLists,
    /// Seconds above 3,600.
    Seconds,
    /// Metres above 0 in 0 seconds.
    NoTime,
    /// Every road idle and longer than 0.
    AllIdle,
    /// A step with 400 rounds already done.
    RoundsDone,
}

impl Refusal {
    /// All refusals but [`Refusal::OwnLoss`], which is not one value but one for each round and truck.
    const BARE: [Refusal; 13] = [
        Refusal::ShortRecording,
        Refusal::TruckCount,
        Refusal::RoundCount,
        Refusal::RecordingLength,
        Refusal::EndBit,
        Refusal::Record,
        Refusal::PlainRound,
        Refusal::ShortBuffer,
        Refusal::RoadLists,
        Refusal::Seconds,
        Refusal::NoTime,
        Refusal::AllIdle,
        Refusal::RoundsDone,
    ];

    /// The scope paper's number, 1 to 14.
    ///
    /// ```
    /// use rajvokshul::Refusal;
    ///
    /// assert_eq!(Refusal::RoundsDone.number(), 14);
    /// assert_eq!(Refusal::OwnLoss { round: 1, truck: 0 }.number(), 6);
    /// ```
    pub fn number(self) -> u8 {
        match self {
            Refusal::ShortRecording => 1,
            Refusal::TruckCount => 2,
            Refusal::RoundCount => 3,
            Refusal::RecordingLength => 4,
            Refusal::EndBit => 5,
            Refusal::OwnLoss { .. } => 6,
            Refusal::Record => 7,
            Refusal::PlainRound => 8,
            Refusal::ShortBuffer => 9,
            Refusal::RoadLists => 10,
            Refusal::Seconds => 11,
            Refusal::NoTime => 12,
            Refusal::AllIdle => 13,
            Refusal::RoundsDone => 14,
        }
    }

    /// What was wrong, in words.
    ///
    /// ```
    /// use rajvokshul::{list, Refusal};
    ///
    /// let refusal = list(&[0x08]).unwrap_err();
    /// assert_eq!(refusal, Refusal::ShortRecording);
    /// assert_eq!(refusal.reason(), "the recording has fewer than 2 bytes");
    /// assert_eq!(refusal.to_string(), "refused 1: the recording has fewer than 2 bytes");
    /// ```
    pub fn reason(self) -> &'static str {
        match self {
            Refusal::ShortRecording => "the recording has fewer than 2 bytes",
            Refusal::TruckCount => "the number of trucks is 0 or above 32",
            Refusal::RoundCount => "the number of rounds is above 400",
            Refusal::RecordingLength => {
                "the recording's length is not the one that its numbers of trucks and rounds fix"
            }
            Refusal::EndBit => "a bit left over at the end of the recording's last byte is 1",
            Refusal::OwnLoss { .. } => "a truck's own loss bit is 1, but a truck always hears itself",
            Refusal::Record => {
                "a fleet record is outside the limits, an opening is above 15, or the openings are not one for each truck"
            }
            Refusal::PlainRound => {
                "the rounds have the wrong number of words, or a word has the bit of a truck that is not there"
            }
            Refusal::ShortBuffer => "a lent buffer is too short",
            Refusal::RoadLists => {
                "there are no roads, more than 16, or lists of unequal length"
            }
            Refusal::Seconds => "the seconds of a road's last run are above 3,600",
            Refusal::NoTime => "a road's last run covered metres in 0 seconds",
            Refusal::AllIdle => "every road is idle and longer than 0",
            Refusal::RoundsDone => "400 rounds are done already",
        }
    }

    /// The refusal of a number. There is none for 6, which names a round and a truck besides: [`Refusal::OwnLoss`].
    ///
    /// ```
    /// use rajvokshul::Refusal;
    ///
    /// assert_eq!(Refusal::from_number(14), Some(Refusal::RoundsDone));
    /// assert_eq!(Refusal::from_number(0), None);
    /// assert_eq!(Refusal::from_number(6), None);
    /// ```
    pub fn from_number(number: u8) -> Option<Refusal> {
        Refusal::BARE.into_iter().find(|r| r.number() == number)
    }

    /// What a call of the library answered: 0 is no refusal, and no other number than 1 to 14 is answered. Of a 6 the
    /// function beside the call says where: 256 times the round, and the truck.
    pub(crate) fn check(answer: u32, own_loss: impl FnOnce() -> u32) -> Result<(), Refusal> {
        match answer {
            0 => Ok(()),
            6 => {
                let place = own_loss();
                // Rounds are at most 400 and trucks below 32.
                Err(Refusal::OwnLoss { round: (place / 256) as u16, truck: (place % 256) as u8 })
            }
            _ => {
                let refusal = u8::try_from(answer).ok().and_then(Refusal::from_number);
                Err(refusal.expect("an answer from 0 to 14"))
            }
        }
    }

    /// The same of a call that looks at no round, so that it never answers 6.
    pub(crate) fn check_bare(answer: u32) -> Result<(), Refusal> {
        Refusal::check(answer, || unreachable!("there is no round to look at"))
    }
}

impl fmt::Display for Refusal {
    /// The number, the round and the truck where the refusal names them, and what was wrong.
    ///
    /// ```
    /// use rajvokshul::Fleet;
    ///
    /// // Truck 0 misses itself in round 1.
    /// let refusal = Fleet::run(&[0x08, 0x02, 0x35, 0x33, 0x80, 0x00]).unwrap_err();
    /// assert_eq!(
    ///     refusal.to_string(),
    ///     "refused 6 round 1 truck 0: a truck's own loss bit is 1, but a truck always hears itself"
    /// );
    /// ```
    fn fmt(&self, f: &mut fmt::Formatter<'_>) -> fmt::Result {
        write!(f, "refused {}", self.number())?;
        if let Refusal::OwnLoss { round, truck } = self {
            write!(f, " round {round} truck {truck}")?;
        }
        write!(f, ": {}", self.reason())
    }
}

impl std::error::Error for Refusal {}
