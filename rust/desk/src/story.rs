//! What happened in each round of a recording, truck by truck.
//!
//! [`Answers::ask`] collects what the proved calls answer of a recording in a cycle. [`Answers::story`] derives who sent,
//! heard and missed what from the plain form and the records before each round, by the rules of the scope paper and, in six
//! rounds, of request F-4, and holds what it derived against the record after the round, the proved grades and the record of
//! the whole run.

use std::fmt;

use rajvokshul::{
    grade_in, read, Cycle, Fleet, Grades, Heard, Plain, Refusal, RoundKind, Sent, State, Truck,
};

use crate::trucks::TruckSet;
use crate::verdict;

/// What a truck sent.
#[derive(Clone, Copy, Debug, PartialEq, Eq)]
pub enum Message {
    /// Its estimate, in a proposal round or in prepare.
    Value(u8),
    /// That the round's bit of its estimate is 1, in a bit round.
    Bit,
    /// A veto, in a veto round or in accept.
    Veto,
}

/// One truck in one round.
#[derive(Clone, Copy, Debug, PartialEq, Eq)]
pub struct Turn {
    /// Whether it runs after the round's stops: only then does it send, listen and have marks.
    pub runs: bool,
    /// Whether it stops at the start of this round.
    pub stops: bool,
    /// What it sends.
    pub sent: Option<Message>,
    /// The senders that it hears, itself included if it sends.
    pub heard: TruckSet,
    /// The senders that it does not hear.
    pub missed: TruckSet,
    /// Whether it has a mark.
    pub marked: bool,
    /// Whether its mark is false: it missed nothing.
    pub false_mark: bool,
    /// Its estimate before the round.
    pub before: u8,
    /// Its estimate after the round.
    pub after: u8,
    /// Whether it becomes unwilling in this round, which is a bit round: it was willing, and listened.
    pub becomes_unwilling: bool,
    /// Whether it decides its estimate at the end of this round.
    pub decides: bool,
}

impl Turn {
    /// Whether it hears a message or has a mark.
    fn notices(&self) -> bool {
        self.marked || !self.heard.is_empty()
    }
}

/// One round.
#[derive(Clone, Debug, PartialEq, Eq)]
pub struct Round {
    /// Its number, counted from 1.
    pub number: u16,
    /// What it is for.
    pub kind: RoundKind,
    /// Who sends in it; the number of messages is the size of this set.
    pub senders: TruckSet,
    /// A turn for each truck.
    pub turns: Vec<Turn>,
}

impl Round {
    /// It with its number, and in any cycle but the two-round one with its name too: `round 4`, `round 4 (bit 2)`.
    pub fn named(&self) -> String {
        match self.kind {
            RoundKind::Proposals | RoundKind::Vetoes => format!("round {}", self.number),
            _ => format!("round {} ({})", self.number, self.kind),
        }
    }

    /// Whether active trucks send their estimates in it: it is for proposals, or prepare.
    pub fn is_for_estimates(&self) -> bool {
        matches!(self.kind, RoundKind::Proposals | RoundKind::Prepare)
    }

    /// The trucks that run after its stops.
    pub fn running(&self) -> TruckSet {
        TruckSet::of(self.turns.len(), |i| self.turns[i].runs)
    }

    /// The trucks that stop at its start.
    pub fn stopping(&self) -> TruckSet {
        TruckSet::of(self.turns.len(), |i| self.turns[i].stops)
    }
}

/// What happened in a recording.
#[derive(Clone, Debug, PartialEq, Eq)]
pub struct Story {
    /// The cycle of rounds by which it is told.
    pub cycle: Cycle,
    /// The crusher that each truck opened with.
    pub openings: Vec<u8>,
    /// The rounds in their order.
    pub rounds: Vec<Round>,
    /// Each truck after the last round.
    pub end: Vec<Truck>,
    /// The first round that breaks each class of marks, or 0.
    pub grades: Grades,
}

/// Why nothing can be told of a recording.
#[derive(Clone, Debug, PartialEq, Eq)]
pub enum Failure {
    /// The recording is refused.
    Refused(Refusal),
    /// What was derived and what the proved calls answered differ: a fault of this program or of its library.
    Contradiction(String),
}

impl From<Refusal> for Failure {
    fn from(refusal: Refusal) -> Failure {
        Failure::Refused(refusal)
    }
}

impl fmt::Display for Failure {
    fn fmt(&self, f: &mut fmt::Formatter<'_>) -> fmt::Result {
        match self {
            Failure::Refused(refusal) => refusal.fmt(f),
            Failure::Contradiction(what) => write!(f, "internal contradiction: {what}"),
        }
    }
}

/// A contradiction unless `holds`.
pub(crate) fn hold(holds: bool, what: impl FnOnce() -> String) -> Result<(), Failure> {
    if holds {
        Ok(())
    } else {
        Err(Failure::Contradiction(what()))
    }
}

/// What the proved calls answer of one recording in one cycle.
#[derive(Clone, Debug, PartialEq, Eq)]
pub struct Answers {
    /// The cycle.
    pub cycle: Cycle,
    /// The recording in plain form.
    pub plain: Plain,
    /// The record before round 1, and after each round, by starting and stepping.
    pub records: Vec<Fleet>,
    /// The record that running the recording returns.
    pub ran: Fleet,
    /// The grades of its marks.
    pub grades: Grades,
}

/// What happened in a recording in the two-round cycle, or why it cannot be told.
pub fn tell(recording: &[u8]) -> Result<Story, Failure> {
    tell_in(Cycle::TwoRound, recording)
}

/// [`tell`] in a cycle.
pub fn tell_in(cycle: Cycle, recording: &[u8]) -> Result<Story, Failure> {
    Answers::ask(cycle, recording)?.story()
}

impl Answers {
    /// Asks the proved calls.
    pub fn ask(cycle: Cycle, recording: &[u8]) -> Result<Answers, Failure> {
        let plain = read(recording)?;
        let accepted = |refusal: Refusal| {
            Failure::Contradiction(format!("the recording is read, but not played: {refusal}"))
        };
        let trucks = plain.openings.len();
        let mut fleet = Fleet::start(trucks as u32, &plain.openings).map_err(accepted)?;
        let mut records = vec![fleet.clone()];
        for words in plain.words.chunks_exact(3 + trucks) {
            fleet.step_in(cycle, words).map_err(accepted)?;
            records.push(fleet.clone());
        }
        let ran = Fleet::run_in(cycle, recording).map_err(accepted)?;
        let grades = grade_in(cycle, recording).map_err(accepted)?;
        Ok(Answers { cycle, plain, records, ran, grades })
    }

    /// Derives what happened and holds it against the answers.
    pub fn story(&self) -> Result<Story, Failure> {
        let openings = self.plain.openings.clone();
        let count = openings.len();
        let mut before: Vec<Truck> = openings.iter().copied().map(Truck::opened).collect();
        hold(self.records.len() == self.plain.rounds as usize + 1, || {
            format!("{} records of {} rounds", self.records.len(), self.plain.rounds)
        })?;
        agree(&before, 0, &self.records[0])?;
        let mut rounds = Vec::new();
        for (words, record) in self.plain.words.chunks_exact(3 + count).zip(&self.records[1..]) {
            let number = rounds.len() as u16 + 1;
            let round = derive(self.cycle, number, words, &before)?;
            before = (0..count).map(|i| after(&before, &round, i)).collect();
            agree(&before, number, record)?;
            rounds.push(round);
        }
        hold(rounds.len() == self.plain.rounds as usize, || {
            format!("the words of {} rounds, not {}", rounds.len(), self.plain.rounds)
        })?;
        hold(self.records.last() == Some(&self.ran), || {
            "stepping and running do not end in the same record".to_string()
        })?;
        let (cycle, grades) = (self.cycle, self.grades);
        let story = Story { cycle, openings, rounds, end: before, grades };
        verdict::hold_against_proofs(&story)?;
        Ok(story)
    }
}

/// Holds the trucks that were derived after round `number` against a record.
fn agree(derived: &[Truck], number: u16, record: &Fleet) -> Result<(), Failure> {
    hold(usize::from(record.trucks()) == derived.len(), || {
        format!("after round {number} the record has {} trucks", record.trucks())
    })?;
    hold(record.rounds_done() == number, || {
        format!("after round {number} the record has {} rounds done", record.rounds_done())
    })?;
    for (i, truck) in derived.iter().enumerate() {
        hold(record.truck(i) == Some(*truck), || {
            format!(
                "after round {number} truck {i} is derived as {truck:?}, its record is {:?}",
                record.truck(i)
            )
        })?;
    }
    Ok(())
}

/// Whether this program has the rules of a round. A later library may have rounds for something else.
fn is_known(kind: RoundKind) -> bool {
    matches!(
        kind,
        RoundKind::Proposals
            | RoundKind::Vetoes
            | RoundKind::Prepare
            | RoundKind::Bit(_)
            | RoundKind::Accept
    )
}

/// A round by its words and the trucks before it; a contradiction where this program has no rules of it.
fn derive(cycle: Cycle, number: u16, words: &[u32], before: &[Truck]) -> Result<Round, Failure> {
    let (count, kind) = (before.len(), cycle.round_kind(number));
    hold(is_known(kind), || format!("round {number} is for {kind}, which has no rules here"))?;
    let was_running = TruckSet::of(count, |i| before[i].state == State::Running);
    let stops = TruckSet(was_running.0 & words[0]);
    let runs = TruckSet(was_running.0 & !words[0]);
    let message = |i: usize| {
        let truck = &before[i];
        let (sends, message) = match kind {
            RoundKind::Proposals | RoundKind::Prepare => {
                (words[1] >> i & 1 == 1, Message::Value(truck.estimate))
            }
            RoundKind::Vetoes => (truck.mark || truck.heard == Heard::Several, Message::Veto),
            RoundKind::Bit(worth) => (truck.estimate & worth != 0, Message::Bit),
            RoundKind::Accept => (truck.unwilling, Message::Veto),
            // Nothing is made up of a round without rules.
            _ => return None,
        };
        (runs.has(i) && sends).then_some(message)
    };
    let senders = TruckSet::of(count, |i| message(i).is_some());
    let turns = (0..count).map(|i| {
        let lost = words[3 + i] & !(1 << i);
        let listens = if runs.has(i) { senders.0 } else { 0 };
        let (heard, missed) = (TruckSet(listens & !lost), TruckSet(listens & lost));
        let marked = runs.has(i) && words[2] >> i & 1 == 1;
        let turn = Turn {
            runs: runs.has(i),
            stops: stops.has(i),
            sent: message(i),
            heard,
            missed,
            marked,
            false_mark: marked && missed.is_empty(),
            before: before[i].estimate,
            after: before[i].estimate,
            becomes_unwilling: false,
            decides: false,
        };
        concluded(turn, kind, before, i)
    });
    Ok(Round { number, kind, senders, turns: turns.collect() })
}

/// A turn with what comes of it: a new estimate where estimates are sent, unwillingness after a bit round, a decision after
/// the last round of a cycle.
fn concluded(turn: Turn, kind: RoundKind, before: &[Truck], i: usize) -> Turn {
    if !turn.runs {
        return turn;
    }
    let truck = &before[i];
    match kind {
        RoundKind::Proposals | RoundKind::Prepare if turn.marked => turn,
        RoundKind::Proposals | RoundKind::Prepare => {
            let least = turn.heard.iter().map(|j| before[j].estimate).min();
            Turn { after: least.unwrap_or(turn.before), ..turn }
        }
        RoundKind::Bit(_) => {
            let listened = turn.sent.is_none();
            Turn { becomes_unwilling: !truck.unwilling && listened && turn.notices(), ..turn }
        }
        RoundKind::Vetoes => Turn { decides: !turn.notices() && truck.heard == Heard::One, ..turn },
        RoundKind::Accept => Turn { decides: !turn.notices() && !truck.unwilling, ..turn },
        _ => turn,
    }
}

/// What a truck has sent after one more round: proposals and vetoes of two rounds are counted, and nothing else.
fn counted(mut sent: Sent, kind: RoundKind, sends: bool) -> Sent {
    let one = u8::from(sends);
    match kind {
        RoundKind::Proposals => sent.proposals += one,
        RoundKind::Vetoes => sent.vetoes += one,
        _ => {}
    }
    sent
}

/// Truck `i` after a round, from the trucks before it. What belongs to the other cycle is left as it was.
fn after(before: &[Truck], round: &Round, i: usize) -> Truck {
    let (turn, mut truck) = (&round.turns[i], before[i]);
    truck.estimate = turn.after;
    truck.state = match turn {
        Turn { stops: true, .. } => State::Stopped(round.number),
        Turn { decides: true, .. } => State::Decided(round.number),
        _ => truck.state,
    };
    truck.sent = counted(truck.sent, round.kind, turn.sent.is_some());
    match round.kind {
        RoundKind::Proposals if turn.runs => {
            (truck.mark, truck.heard) = (turn.marked, values(before, turn));
        }
        RoundKind::Proposals | RoundKind::Vetoes => {
            (truck.mark, truck.heard) = (false, Heard::Nothing);
        }
        RoundKind::Bit(_) if turn.runs => truck.unwilling |= turn.becomes_unwilling,
        RoundKind::Prepare | RoundKind::Bit(_) | RoundKind::Accept => truck.unwilling = false,
        _ => {}
    }
    truck
}

/// How many different values are heard in a turn.
fn values(before: &[Truck], turn: &Turn) -> Heard {
    let mut values: Vec<u8> = turn.heard.iter().map(|j| before[j].estimate).collect();
    values.sort_unstable();
    values.dedup();
    match values.len() {
        0 => Heard::Nothing,
        1 => Heard::One,
        _ => Heard::Several,
    }
}
