//! Why a recording is refused, with the place; or what an accepted one holds.
//!
//! The place is found here by reading bits. The proved library decides whether and by which number a recording is
//! refused, and [`explained`] answers a contradiction where the two differ.

use std::fmt;

use rajvokshul::{read, Refusal, MAX_RECORDING};

use crate::story::{hold, tell, Failure, Story};
use crate::trucks::{counted, grouped};
use crate::verdict::{counts, Counts};

/// Most of an input is never read: one byte more than the largest recording has settles that it is too long.
pub const MOST_READ: usize = MAX_RECORDING + 1;

/// The two counts that a recording begins with.
#[derive(Clone, Copy, Debug, PartialEq, Eq)]
pub struct Header {
    /// The number of trucks.
    pub trucks: usize,
    /// The number of rounds.
    pub rounds: usize,
}

impl Header {
    /// The counts of a recording of at least two bytes, whether or not they are within the limits.
    fn of(recording: &[u8]) -> Option<Header> {
        let first = usize::from(*recording.first()?);
        let second = usize::from(*recording.get(1)?);
        Some(Header { trucks: first >> 2, rounds: (first & 3) << 8 | second })
    }

    /// The bits of one round: stop, active and mark bits, and a row of loss bits for each truck.
    fn round_bits(self) -> usize {
        3 * self.trucks + self.trucks * self.trucks
    }

    /// The bits of the whole recording.
    pub fn bits(self) -> usize {
        16 + 4 * self.trucks + self.rounds * self.round_bits()
    }

    /// The bytes of the whole recording.
    pub fn bytes(self) -> usize {
        self.bits().div_ceil(8)
    }

    /// Where the own loss bit of a truck stands in a round counted from 1.
    fn own_bit(self, round: usize, truck: usize) -> usize {
        let rows = 16 + 4 * self.trucks + (round - 1) * self.round_bits() + 3 * self.trucks;
        rows + truck * self.trucks + truck
    }

    /// The field that a bit from the 17th on belongs to.
    pub fn field(self, bit: usize) -> Field {
        let Some(place) = bit.checked_sub(16 + 4 * self.trucks) else {
            return Field::Opening { truck: (bit - 16) / 4 };
        };
        let round = place / self.round_bits() + 1;
        let place = place % self.round_bits();
        let truck = place % self.trucks;
        match place / self.trucks {
            0 => Field::Bit { round, kind: "stop", truck },
            1 => Field::Bit { round, kind: "active", truck },
            2 => Field::Bit { round, kind: "mark", truck },
            row => Field::Loss { round, truck: row - 3, sender: truck },
        }
    }
}

/// A field of a recording after its two counts. Rounds count from 1, trucks from 0.
#[derive(Clone, Copy, Debug, PartialEq, Eq)]
pub enum Field {
    /// The crusher that a truck opens with.
    Opening {
        /// The truck.
        truck: usize,
    },
    /// A bit of a truck in a round.
    Bit {
        /// The round.
        round: usize,
        /// Stop, active or mark.
        kind: &'static str,
        /// The truck.
        truck: usize,
    },
    /// A bit of a row: whether a truck missed a sender.
    Loss {
        /// The round.
        round: usize,
        /// The truck whose row it is.
        truck: usize,
        /// The sender.
        sender: usize,
    },
}

impl fmt::Display for Field {
    fn fmt(&self, f: &mut fmt::Formatter<'_>) -> fmt::Result {
        match self {
            Field::Opening { truck } => write!(f, "the opening of truck {truck}"),
            Field::Bit { round, kind, truck } => {
                write!(f, "round {round}, the {kind} bit of truck {truck}")
            }
            Field::Loss { round, truck, sender } => {
                write!(
                    f,
                    "round {round}, in the row of truck {truck} the loss bit for truck {sender}"
                )
            }
        }
    }
}

/// A bit of a recording.
#[derive(Clone, Copy, Debug, PartialEq, Eq)]
pub struct Place {
    /// The offset of its byte, counted from 0.
    pub offset: usize,
    /// What the bit is worth in its byte: 128 for the first, 1 for the last.
    pub worth: u8,
    /// The whole byte.
    pub byte: u8,
}

impl Place {
    /// The place of a bit counted from 0, most significant bit of each byte first, within the recording.
    fn of(recording: &[u8], bit: usize) -> Place {
        Place { offset: bit / 8, worth: 0x80 >> (bit % 8), byte: recording[bit / 8] }
    }

    fn is_set(self) -> bool {
        self.byte & self.worth != 0
    }
}

impl fmt::Display for Place {
    fn fmt(&self, f: &mut fmt::Formatter<'_>) -> fmt::Result {
        let Place { offset, worth, byte } = self;
        let offset = grouped(*offset);
        write!(f, "the bit worth {worth:#04x} of the byte at offset {offset}, which is {byte:#04x}")
    }
}

/// What is found in a recording.
#[derive(Clone, Copy, Debug, PartialEq, Eq)]
pub enum Finding {
    /// Nothing is wrong.
    Sound(Header),
    /// 1: there are not even the two counts.
    Short {
        /// How many bytes there are.
        bytes: usize,
    },
    /// 2: the number of trucks is out of range.
    Trucks(Header),
    /// 3: the number of rounds is out of range.
    Rounds(Header),
    /// 4: the length is not that of the two counts.
    Length {
        /// The two counts.
        header: Header,
        /// How many bytes there are.
        bytes: usize,
    },
    /// 5: a bit after the last field is 1.
    EndBit {
        /// The two counts.
        header: Header,
        /// The first such bit.
        place: Place,
    },
    /// 6: an own loss bit is 1.
    OwnLoss {
        /// The earliest round that has one.
        round: usize,
        /// The lowest truck in that round.
        truck: usize,
        /// The bit.
        place: Place,
    },
}

impl Finding {
    /// Looks at a recording by the checks 1 to 6 in their order.
    pub fn of(recording: &[u8]) -> Finding {
        let bytes = recording.len();
        let Some(header) = Header::of(recording) else {
            return Finding::Short { bytes };
        };
        if header.trucks == 0 || header.trucks > 32 {
            return Finding::Trucks(header);
        }
        if header.rounds > 400 {
            return Finding::Rounds(header);
        }
        if bytes != header.bytes() {
            return Finding::Length { header, bytes };
        }
        let set = |bit: usize| Some(Place::of(recording, bit)).filter(|place| place.is_set());
        if let Some(place) = (header.bits()..8 * bytes).find_map(set) {
            return Finding::EndBit { header, place };
        }
        let own = |round: usize| {
            (0..header.trucks).find_map(|truck| {
                let place = set(header.own_bit(round, truck))?;
                Some(Finding::OwnLoss { round, truck, place })
            })
        };
        (1..=header.rounds).find_map(own).unwrap_or(Finding::Sound(header))
    }

    /// The refusal that this is, if something is wrong.
    pub fn refusal(self) -> Option<Refusal> {
        match self {
            Finding::Sound(_) => None,
            Finding::Short { .. } => Some(Refusal::ShortRecording),
            Finding::Trucks(_) => Some(Refusal::TruckCount),
            Finding::Rounds(_) => Some(Refusal::RoundCount),
            Finding::Length { .. } => Some(Refusal::RecordingLength),
            Finding::EndBit { .. } => Some(Refusal::EndBit),
            // Within the limits, as 2 and 3 come first.
            Finding::OwnLoss { round, truck, .. } => {
                Some(Refusal::OwnLoss { round: round as u16, truck: truck as u8 })
            }
        }
    }
}

impl fmt::Display for Finding {
    fn fmt(&self, f: &mut fmt::Formatter<'_>) -> fmt::Result {
        match *self {
            Finding::Sound(header) => {
                let left = 8 * header.bytes() - header.bits();
                let (bytes, bits) = (counted(header.bytes(), "byte"), counted(header.bits(), "bit"));
                write!(f, "{bytes}; the fields take {bits}, {left} left over")
            }
            Finding::Short { bytes } => {
                write!(f, "{}, but the numbers of trucks and rounds alone take 2", counted(bytes, "byte"))
            }
            Finding::Trucks(header) => write!(
                f,
                "the field of trucks (the first 6 bits, in the byte at offset 0) reads {}; it must read 1 to 32",
                header.trucks
            ),
            Finding::Rounds(header) => write!(
                f,
                "the field of rounds (10 bits: the last 2 of the byte at offset 0, all of the byte at offset 1) reads {}; \
                 it must read 0 to 400",
                grouped(header.rounds)
            ),
            Finding::Length { header, bytes } => length(f, header, bytes),
            Finding::EndBit { header, place } => write!(
                f,
                "the fields end after {}, and the bits after them must be 0; the first that is 1 is {place}",
                counted(header.bits(), "bit")
            ),
            Finding::OwnLoss { round, truck, place } => {
                write!(f, "the first one is in round {round}, in the row of truck {truck}: {place}")
            }
        }
    }
}

/// A length that is not the one of the counts: where the recording breaks off, or from where on it is too long.
fn length(f: &mut fmt::Formatter<'_>, header: Header, bytes: usize) -> fmt::Result {
    let wanted = header.bytes();
    let (trucks, rounds) = (counted(header.trucks, "truck"), counted(header.rounds, "round"));
    let more = if bytes >= MOST_READ { " or more" } else { "" };
    write!(
        f,
        "{trucks} and {rounds} take {} ({}), but there are {}{more}; ",
        counted(wanted, "byte"),
        counted(header.bits(), "bit"),
        grouped(bytes)
    )?;
    if bytes < wanted {
        let (short, at) = (counted(wanted - bytes, "byte"), header.field(8 * bytes));
        write!(f, "{short} short: it breaks off at offset {}, before {at}", grouped(bytes))
    } else {
        let over = counted(bytes - wanted, "byte");
        write!(f, "{over}{more} too long: it should end before offset {}", grouped(wanted))
    }
}

/// The text of `desk explain`, and the refusal if there is one.
pub fn explained(recording: &[u8]) -> Result<(String, Option<Refusal>), Failure> {
    let finding = Finding::of(recording);
    let refusal = read(recording).err();
    hold(finding.refusal() == refusal, || {
        format!("{:?} is found ({finding}), but the library says {refusal:?}", finding.refusal())
    })?;
    let text = match refusal {
        Some(refusal) => format!("{refusal}\n{finding}\n"),
        None => sound(finding, &tell(recording)?),
    };
    Ok((text, refusal))
}

/// What an accepted recording holds.
fn sound(finding: Finding, story: &Story) -> String {
    let Counts { proposals, vetoes, missed, marks, false_marks, decided, stopped } = counts(story);
    let (trucks, rounds) = (story.openings.len(), story.rounds.len());
    let running = trucks - decided - stopped;
    format!(
        "accepted: {}, {}\n{finding}\nsent {} and {}, missed {}\nmarks {}, of these false {}\n\
         decided {decided}, stopped {stopped}, running {running}\n",
        counted(trucks, "truck"),
        counted(rounds, "round"),
        counted(proposals, "proposal"),
        counted(vetoes, "veto"),
        counted(missed, "message"),
        grouped(marks),
        grouped(false_marks)
    )
}
