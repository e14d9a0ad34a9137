//! The two cycles of rounds.

use std::fmt;

/// The cycle of rounds by which a fleet is stepped, or a recording run and graded. Neither a start nor a recording says which:
/// the caller does.
///
/// ```
/// use rajvokshul::{Cycle, Fleet, Refusal, Round, State};
///
/// // Radios that mark a round only where every message of it was missed: six rounds. Both trucks send in the first.
/// let mut fleet = Fleet::start(2, &[3, 5])?;
/// fleet.step_in(Cycle::SixRound, Round::new(2)?.active(0)?.active(1)?)?;
/// for _ in 2..=6 {
///     fleet.step_in(Cycle::SixRound, Round::new(2)?)?;
/// }
/// assert!(fleet.iter().all(|truck| truck.estimate == 3 && truck.state == State::Decided(6)));
/// # Ok::<(), Refusal>(())
/// ```
#[derive(Clone, Copy, Debug, Default, PartialEq, Eq, Hash)]
#[non_exhaustive]
pub enum Cycle {
    /// Proposals and vetoes. No two trucks decide different crushers where marks are majority complete in rounds for proposals
    /// and zero complete in those for vetoes.
    #[default]
    TwoRound,
    /// Prepare, four bit rounds, accept. No two trucks decide different crushers where marks are zero complete.
    SixRound,
}

impl Cycle {
    /// Both cycles, the shorter one first; a later version may have more.
    pub const ALL: &'static [Cycle] = &[Cycle::TwoRound, Cycle::SixRound];

    /// How many rounds it has. Trucks decide in the last of them.
    ///
    /// ```
    /// # use rajvokshul::Cycle;
    /// assert!(Cycle::ALL.iter().map(|cycle| cycle.rounds()).eq([2, 6]));
    /// ```
    pub fn rounds(self) -> u16 {
        match self {
            Cycle::TwoRound => 2,
            Cycle::SixRound => 6,
        }
    }

    /// What round `k`, counted from 1, is for. Of 0, which is no round, it says what it says of the last round of a cycle.
    ///
    /// ```
    /// # use rajvokshul::{Cycle, RoundKind};
    /// assert_eq!(Cycle::TwoRound.round_kind(3), RoundKind::Proposals);
    /// assert_eq!(Cycle::SixRound.round_kind(8), RoundKind::Bit(8));
    /// let names: Vec<String> = (1..=6).map(|k| Cycle::SixRound.round_kind(k).to_string()).collect();
    /// assert_eq!(names, ["prepare", "bit 8", "bit 4", "bit 2", "bit 1", "accept"]);
    /// ```
    pub fn round_kind(self, k: u16) -> RoundKind {
        match (self, k % self.rounds()) {
            (Cycle::TwoRound, 1) => RoundKind::Proposals,
            (Cycle::TwoRound, _) => RoundKind::Vetoes,
            (Cycle::SixRound, 1) => RoundKind::Prepare,
            (Cycle::SixRound, 2) => RoundKind::Bit(8),
            (Cycle::SixRound, 3) => RoundKind::Bit(4),
            (Cycle::SixRound, 4) => RoundKind::Bit(2),
            (Cycle::SixRound, 5) => RoundKind::Bit(1),
            (Cycle::SixRound, _) => RoundKind::Accept,
        }
    }
}

impl fmt::Display for Cycle {
    /// In words.
    ///
    /// ```
    /// # use rajvokshul::Cycle;
    /// assert!(Cycle::ALL.iter().map(Cycle::to_string).eq(["two rounds", "six rounds"]));
    /// ```
    fn fmt(&self, f: &mut fmt::Formatter<'_>) -> fmt::Result {
        f.pad(match self {
            Cycle::TwoRound => "two rounds",
            Cycle::SixRound => "six rounds",
        })
    }
}

/// What a round of a cycle is for; [`Cycle::round_kind`] tells it of a round, and `to_string` names it.
#[derive(Clone, Copy, Debug, PartialEq, Eq, Hash)]
#[non_exhaustive]
pub enum RoundKind {
    /// In two rounds the odd ones: active trucks send their estimates, and a truck with no mark takes the least value it hears.
    Proposals,
    /// In two rounds the even ones: trucks that had a mark or heard several values send a veto. A truck that heard one value
    /// decides if it hears none and has no mark.
    Vetoes,
    /// In six rounds the first: active trucks send their estimates, a truck with no mark takes the least value it hears, and all
    /// are willing.
    Prepare,
    /// In six rounds the second to the fifth, for the bits of the estimate with worth 8, 4, 2 and 1: trucks send whose bit is 1.
    /// A truck whose bit is 0 becomes unwilling if it hears a message or has a mark.
    Bit(u8),
    /// In six rounds the last: unwilling trucks send a veto. A willing truck decides if it hears none and has no mark. All others
    /// are willing again.
    Accept,
}

impl fmt::Display for RoundKind {
    /// Its name: `proposals`, `vetoes`, `prepare`, `bit 8` to `bit 1`, `accept`.
    ///
    /// ```
    /// # use rajvokshul::RoundKind;
    /// assert_eq!(RoundKind::Bit(4).to_string(), "bit 4");
    /// assert_eq!(format!("{:>10}", RoundKind::Vetoes), "    vetoes");
    /// ```
    fn fmt(&self, f: &mut fmt::Formatter<'_>) -> fmt::Result {
        match self {
            RoundKind::Proposals => f.pad("proposals"),
            RoundKind::Vetoes => f.pad("vetoes"),
            RoundKind::Prepare => f.pad("prepare"),
            RoundKind::Bit(worth) => f.pad(&format!("bit {worth}")),
            RoundKind::Accept => f.pad("accept"),
        }
    }
}
