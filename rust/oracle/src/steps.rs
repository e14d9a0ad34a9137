//! Starting, one round by the rules, stepping and running.

use std::collections::BTreeSet;

use crate::cycle::{Cycle, RoundKind};
use crate::fleet::{record_refused, Fleet, Heard, Sent, State, Truck};
use crate::recording::{
    openings_refused, read, round_has_own_bit, round_misshapen, words_own_bit, OwnBit, MAX_ROUNDS,
    MAX_TRUCKS,
};

/// Starts a fleet: refusals 2, 7. A refused start holds the blank record.
pub fn start(n: u64, openings: &[u8]) -> (u8, Fleet) {
    if n == 0 || n > MAX_TRUCKS as u64 {
        return (2, Fleet::blank());
    }
    if openings_refused(n as usize, openings) {
        return (7, Fleet::blank());
    }
    let mut fleet = Fleet { n: n as u8, ..Fleet::blank() };
    for (truck, opening) in openings.iter().enumerate() {
        fleet.trucks[truck] = Truck::opened(*opening);
    }
    (0, fleet)
}

/// The radio in one round: who runs after the round's stops, who sends, who has
/// a mark bit, and who hears whom (hearer first).
#[derive(Clone, Debug, PartialEq, Eq)]
pub struct Radio {
    pub round: u16,
    pub kind: RoundKind,
    pub running: Vec<bool>,
    pub sends: Vec<bool>,
    pub mark_bit: Vec<bool>,
    pub hears: Vec<Vec<bool>>,
}

impl Radio {
    /// Whether active trucks send their estimates; in the six-round cycle that
    /// is prepare.
    pub fn is_proposal(&self) -> bool {
        matches!(self.kind, RoundKind::Proposals | RoundKind::Prepare)
    }

    /// M, the number of messages sent.
    pub fn messages(&self) -> usize {
        self.sends.iter().filter(|s| **s).count()
    }

    /// Messages a truck hears, its own included.
    pub fn heard(&self, truck: usize) -> usize {
        self.hears[truck].iter().filter(|h| **h).count()
    }

    /// Messages sent that a truck doesn't hear.
    pub fn missed(&self, truck: usize) -> usize {
        (0..self.sends.len()).filter(|j| self.sends[*j] && !self.hears[truck][*j]).count()
    }

    /// What is counted of what a truck sends in this round: at most one message,
    /// of the round's kind, and none in the six-round cycle.
    pub fn sent(&self, truck: usize) -> Sent {
        let one = u8::from(self.sends[truck]);
        match self.kind {
            RoundKind::Proposals => Sent { proposals: one, vetoes: 0 },
            RoundKind::Vetoes => Sent { proposals: 0, vetoes: one },
            RoundKind::Prepare | RoundKind::Bit(_) | RoundKind::Accept => Sent::default(),
        }
    }

    /// Numbers of the running trucks.
    pub fn running_trucks(&self) -> Vec<usize> {
        (0..self.running.len()).filter(|i| self.running[*i]).collect()
    }
}

/// The next round on the radio, from an accepted record and an accepted round.
pub fn radio(cycle: Cycle, fleet: &Fleet, words: &[u32]) -> Radio {
    let n = fleet.n as usize;
    let round = fleet.done + 1;
    let kind = cycle.round_kind(round);
    let flag = |word: usize, truck: usize| words[word] >> truck & 1 == 1;
    let mut running = Vec::new();
    let mut sends = Vec::new();
    let mut mark_bit = Vec::new();
    for i in 0..n {
        let truck = &fleet.trucks[i];
        let runs = truck.is_running() && !flag(0, i);
        let wants_to_send = match kind {
            RoundKind::Proposals | RoundKind::Prepare => flag(1, i),
            RoundKind::Vetoes => truck.mark || truck.heard == Heard::Several,
            RoundKind::Bit(worth) => has_bit(truck.estimate, worth),
            RoundKind::Accept => truck.unwilling,
        };
        running.push(runs);
        sends.push(runs && wants_to_send);
        mark_bit.push(flag(2, i));
    }
    let mut hears = Vec::new();
    for i in 0..n {
        let mut row = Vec::new();
        for j in 0..n {
            let lost = flag(3 + i, j) && j != i;
            row.push(running[i] && sends[j] && !lost);
        }
        hears.push(row);
    }
    Radio { round, kind, running, sends, mark_bit, hears }
}

/// Whether the bit of this worth is 1 in a crusher's number.
fn has_bit(crusher: u8, worth: u8) -> bool {
    crusher / worth % 2 == 1
}

/// The record after the next round, from an accepted record and round.
pub fn follow(cycle: Cycle, fleet: &Fleet, words: &[u32]) -> Fleet {
    let radio = radio(cycle, fleet, words);
    let mut next = *fleet;
    next.done = radio.round;
    for i in 0..fleet.n as usize {
        let before = fleet.trucks[i];
        let after = if !before.is_running() {
            before
        } else if !radio.running[i] {
            let stopped = Truck { state: State::Stopped(radio.round), ..before };
            match cycle {
                Cycle::TwoRound => stopped.with_empty_memory(),
                Cycle::SixRound => Truck { unwilling: false, ..stopped },
            }
        } else {
            match radio.kind {
                RoundKind::Proposals => after_proposal(fleet, &radio, i),
                RoundKind::Vetoes => after_veto(before, &radio, i),
                RoundKind::Prepare => after_prepare(fleet, &radio, i),
                RoundKind::Bit(worth) => after_bit(before, &radio, i, worth),
                RoundKind::Accept => after_accept(before, &radio, i),
            }
        };
        next.trucks[i] = Truck { sent: before.sent.plus(radio.sent(i)), ..after };
    }
    next
}

/// The different values that a truck hears.
fn values_heard(fleet: &Fleet, radio: &Radio, i: usize) -> BTreeSet<u8> {
    let heard = (0..radio.sends.len()).filter(|j| radio.hears[i][*j]);
    heard.map(|j| fleet.trucks[j].estimate).collect()
}

fn after_proposal(fleet: &Fleet, radio: &Radio, i: usize) -> Truck {
    let values = values_heard(fleet, radio, i);
    let mark = radio.mark_bit[i];
    let mut truck = fleet.trucks[i];
    truck.mark = mark;
    truck.heard = match values.len() {
        0 => Heard::Nothing,
        1 => Heard::One,
        _ => Heard::Several,
    };
    if let (false, Some(least)) = (mark, values.first()) {
        truck.estimate = *least;
    }
    truck
}

fn after_veto(before: Truck, radio: &Radio, i: usize) -> Truck {
    let decides = radio.heard(i) == 0 && !radio.mark_bit[i] && before.heard == Heard::One;
    let state = if decides { State::Decided(radio.round) } else { State::Running };
    Truck { state, ..before }.with_empty_memory()
}

/// A truck with no mark that heard something takes the least value, and every
/// truck starts the cycle willing.
fn after_prepare(fleet: &Fleet, radio: &Radio, i: usize) -> Truck {
    let before = fleet.trucks[i];
    let least = values_heard(fleet, radio, i).first().copied();
    let estimate = match least {
        Some(value) if !radio.mark_bit[i] => value,
        _ => before.estimate,
    };
    Truck { estimate, unwilling: false, ..before }
}

/// A truck whose bit is 0 listens, and becomes unwilling on any message or mark.
fn after_bit(before: Truck, radio: &Radio, i: usize, worth: u8) -> Truck {
    let listens = !has_bit(before.estimate, worth);
    let notices = radio.heard(i) > 0 || radio.mark_bit[i];
    if listens && notices {
        Truck { unwilling: true, ..before }
    } else {
        before
    }
}

/// A willing truck that hears no veto and has no mark decides. Every truck is
/// willing again.
fn after_accept(before: Truck, radio: &Radio, i: usize) -> Truck {
    let decides = !before.unwilling && radio.heard(i) == 0 && !radio.mark_bit[i];
    let state = if decides { State::Decided(radio.round) } else { State::Running };
    Truck { state, unwilling: false, ..before }
}

/// One step: refusals 7, 14, 8, 6. A refused step returns the record as given.
pub fn step(cycle: Cycle, fleet: &Fleet, words: &[u32]) -> (u8, Fleet) {
    if record_refused(cycle, fleet) {
        return (7, *fleet);
    }
    if fleet.done as usize == MAX_ROUNDS {
        return (14, *fleet);
    }
    let n = fleet.n as usize;
    if round_misshapen(n, words) {
        return (8, *fleet);
    }
    if round_has_own_bit(n, words) {
        return (6, *fleet);
    }
    (0, follow(cycle, fleet, words))
}

/// Where refusal 6 finds an own loss bit of a step's round, which is the round
/// after those done; nothing where the step is taken or refused otherwise.
pub fn step_own_bit(cycle: Cycle, fleet: &Fleet, words: &[u32]) -> Option<OwnBit> {
    if step(cycle, fleet, words).0 != 6 {
        return None;
    }
    let least = words_own_bit(fleet.n as usize, words)?;
    Some(OwnBit { round: fleet.done + 1, ..least })
}

/// Runs a recording: refusals 1 to 6. A refused run holds the blank record.
pub fn run(cycle: Cycle, bytes: &[u8]) -> (u8, Fleet) {
    match read(bytes) {
        Err(refusal) => (refusal, Fleet::blank()),
        Ok(plain) => {
            let (_, mut fleet) = start(plain.n as u64, &plain.openings);
            for round in 1..=plain.rounds {
                fleet = follow(cycle, &fleet, plain.round(round));
            }
            (0, fleet)
        }
    }
}
