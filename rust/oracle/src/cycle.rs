//! The two cycles of rounds, and what each of their rounds is for.

/// The cycle by which a fleet is stepped, or a recording run and graded.
#[derive(Clone, Copy, Debug, PartialEq, Eq, PartialOrd, Ord)]
pub enum Cycle {
    /// Proposals and vetoes.
    TwoRound,
    /// Prepare, four bit rounds, accept.
    SixRound,
}

/// What a round is for.
#[derive(Clone, Copy, Debug, PartialEq, Eq, PartialOrd, Ord)]
pub enum RoundKind {
    Proposals,
    Vetoes,
    Prepare,
    /// The bit of the estimate with this worth: 8, 4, 2 or 1.
    Bit(u8),
    Accept,
}

impl Cycle {
    pub const ALL: [Cycle; 2] = [Cycle::TwoRound, Cycle::SixRound];

    /// How many rounds it has.
    pub fn rounds(self) -> u16 {
        match self {
            Cycle::TwoRound => 2,
            Cycle::SixRound => 6,
        }
    }

    /// What a round is for; rounds count from 1.
    pub fn round_kind(self, round: u16) -> RoundKind {
        let place = (round - 1) % self.rounds();
        match self {
            Cycle::TwoRound => [RoundKind::Proposals, RoundKind::Vetoes][place as usize],
            Cycle::SixRound => [
                RoundKind::Prepare,
                RoundKind::Bit(8),
                RoundKind::Bit(4),
                RoundKind::Bit(2),
                RoundKind::Bit(1),
                RoundKind::Accept,
            ][place as usize],
        }
    }

    /// How many rounds after S calm lasts.
    pub fn calm_span(self) -> u64 {
        match self {
            Cycle::TwoRound => 4,
            Cycle::SixRound => 10,
        }
    }
}
