//! Fleet records, and refusal 7 of one.

use crate::cycle::Cycle;
use crate::recording::{MAX_CRUSHER, MAX_ROUNDS, MAX_TRUCKS};

/// Places of a record, whatever its n.
pub const PLACES: usize = 32;

/// How many different values a truck heard in the proposal round.
#[derive(Clone, Copy, Debug, PartialEq, Eq)]
pub enum Heard {
    Nothing,
    One,
    Several,
}

/// What a truck does; the number is the round of its stop or decision.
#[derive(Clone, Copy, Debug, PartialEq, Eq)]
pub enum State {
    Running,
    Stopped(u16),
    Decided(u16),
}

/// How many messages of each kind a truck sent.
#[derive(Clone, Copy, Debug, Default, PartialEq, Eq)]
pub struct Sent {
    pub proposals: u8,
    pub vetoes: u8,
}

impl Sent {
    pub fn plus(self, more: Sent) -> Sent {
        Sent { proposals: self.proposals + more.proposals, vetoes: self.vetoes + more.vetoes }
    }
}

/// One truck. A decided truck's crusher is its estimate.
#[derive(Clone, Copy, Debug, PartialEq, Eq)]
pub struct Truck {
    pub opening: u8,
    pub estimate: u8,
    /// Memory: had a mark in the proposal round.
    pub mark: bool,
    /// Memory: values heard in the proposal round.
    pub heard: Heard,
    /// Of the six-round cycle: it noticed something in a bit round in which it listened.
    pub unwilling: bool,
    pub state: State,
    pub sent: Sent,
}

impl Truck {
    /// A truck before round 1.
    pub fn opened(opening: u8) -> Truck {
        Truck {
            opening,
            estimate: opening,
            mark: false,
            heard: Heard::Nothing,
            unwilling: false,
            state: State::Running,
            sent: Sent::default(),
        }
    }

    pub fn is_running(&self) -> bool {
        self.state == State::Running
    }

    pub fn memory_is_empty(&self) -> bool {
        !self.mark && self.heard == Heard::Nothing
    }

    /// The same truck with nothing remembered.
    pub fn with_empty_memory(self) -> Truck {
        Truck { mark: false, heard: Heard::Nothing, ..self }
    }
}

/// A fleet record: n trucks in the first places, and the rounds done.
#[derive(Clone, Copy, Debug, PartialEq, Eq)]
pub struct Fleet {
    pub n: u8,
    pub done: u16,
    pub trucks: [Truck; PLACES],
}

impl Fleet {
    /// The record that a refused start or run holds.
    pub fn blank() -> Fleet {
        Fleet { n: 0, done: 0, trucks: [Truck::opened(0); PLACES] }
    }

    /// The trucks below n. Only for a record with n in range.
    pub fn trucks_below_n(&self) -> &[Truck] {
        &self.trucks[..self.n as usize]
    }

    /// All proposals and all vetoes that the trucks below n sent.
    pub fn totals(&self) -> (u32, u32) {
        let sent = self.trucks_below_n().iter().map(|truck| truck.sent);
        sent.fold((0, 0), |(proposals, vetoes), truck| {
            (proposals + u32::from(truck.proposals), vetoes + u32::from(truck.vetoes))
        })
    }

    /// Whether two records have the same n, rounds done and trucks below n.
    pub fn same_below_n(&self, other: &Fleet) -> bool {
        self.n == other.n
            && self.done == other.done
            && self.trucks_below_n() == other.trucks_below_n()
    }
}

/// Refusal 7 of a record, by a cycle. Places n and above are not read.
pub fn record_refused(cycle: Cycle, fleet: &Fleet) -> bool {
    if fleet.n == 0 || fleet.n as usize > MAX_TRUCKS || fleet.done as usize > MAX_ROUNDS {
        return true;
    }
    fleet.trucks_below_n().iter().any(|truck| truck_refused(cycle, truck, fleet.done))
}

fn truck_refused(cycle: Cycle, truck: &Truck, done: u16) -> bool {
    let crusher_too_high = truck.opening > MAX_CRUSHER || truck.estimate > MAX_CRUSHER;
    let round_wrong = match truck.state {
        State::Running => false,
        State::Stopped(round) => round == 0 || round > done,
        State::Decided(round) => round == 0 || round % cycle.rounds() != 0 || round > done,
    };
    let own_part_wrong = match cycle {
        Cycle::TwoRound => memory_refused(truck, done) || counts_refused(truck, done),
        Cycle::SixRound => willingness_refused(truck, done),
    };
    crusher_too_high || round_wrong || own_part_wrong
}

fn memory_refused(truck: &Truck, done: u16) -> bool {
    !truck.memory_is_empty() && (done % 2 == 0 || !truck.is_running())
}

fn counts_refused(truck: &Truck, done: u16) -> bool {
    // Of an odd number of rounds, the last one is odd.
    let [odd_rounds, even_rounds] = [done.div_ceil(2), done / 2];
    u16::from(truck.sent.proposals) > odd_rounds || u16::from(truck.sent.vetoes) > even_rounds
}

/// A truck is unwilling only while it runs and 2 to 5 rounds of the cycle are done.
fn willingness_refused(truck: &Truck, done: u16) -> bool {
    truck.unwilling && !(truck.is_running() && (2..=5).contains(&(done % 6)))
}
