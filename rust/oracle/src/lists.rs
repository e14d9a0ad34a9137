//! Whole lists of steps, and what demand 3 claims of the last record.

use crate::cycle::Cycle;
use crate::fleet::{Fleet, Sent, State};
use crate::marks::radios;
use crate::recording::{round_has_own_bit, round_misshapen, Plain, MAX_ROUNDS};
use crate::steps::{start, step};

/// A start that should be accepted, then any number of steps, each with a
/// round of its own in plain form.
#[derive(Clone, Debug, PartialEq, Eq)]
pub struct List {
    pub n: u64,
    pub openings: Vec<u8>,
    pub steps: Vec<Vec<u32>>,
}

/// For each step whether its round is taken: by its words and the number of
/// rounds taken before alone.
pub fn taken(list: &List) -> Vec<bool> {
    let n = list.n as usize;
    let mut count = 0;
    let mut answer = Vec::new();
    for words in &list.steps {
        let wrong = round_misshapen(n, words) || round_has_own_bit(n, words);
        let is_taken = !wrong && count < MAX_ROUNDS;
        count += is_taken as usize;
        answer.push(is_taken);
    }
    answer
}

/// The recording of a list, in plain form.
pub fn recording_of(list: &List) -> Plain {
    let mut words = Vec::new();
    let mut rounds = 0;
    for (step, is_taken) in list.steps.iter().zip(taken(list)) {
        if is_taken {
            words.extend(step);
            rounds += 1;
        }
    }
    Plain { n: list.n as usize, rounds, openings: list.openings.clone(), words }
}

/// Plays a list, each step in the cycle that `cycle` names by its place in the
/// list: the number each step answered, and the record returned last. A start
/// that is refused answers its number.
pub fn play(list: &List, cycle: impl Fn(usize) -> Cycle) -> Result<(Vec<u8>, Fleet), u8> {
    let (number, mut fleet) = start(list.n, &list.openings);
    if number != 0 {
        return Err(number);
    }
    let mut numbers = Vec::new();
    for (place, words) in list.steps.iter().enumerate() {
        let (number, next) = step(cycle(place), &fleet, words);
        numbers.push(number);
        fleet = next;
    }
    Ok((numbers, fleet))
}

/// How many messages of each kind the rules of the two-round cycle, which alone
/// counts them, made each truck send: by the radio in each round, from the
/// openings on, and not by the record's counts.
pub fn sent_by_the_rules(plain: &Plain) -> Vec<Sent> {
    let radios = radios(Cycle::TwoRound, plain);
    let sends_in = |truck: usize, odd: bool| {
        radios.iter().filter(|radio| radio.is_proposal() == odd && radio.sends[truck]).count() as u8
    };
    (0..plain.n)
        .map(|truck| Sent { proposals: sends_in(truck, true), vetoes: sends_in(truck, false) })
        .collect()
}

/// The crushers of the decided trucks below n.
pub fn decisions(fleet: &Fleet) -> Vec<u8> {
    let decided = |state| matches!(state, State::Decided(_));
    fleet.trucks_below_n().iter().filter(|t| decided(t.state)).map(|t| t.estimate).collect()
}

/// No two decided trucks hold different crushers.
pub fn agreed(fleet: &Fleet) -> bool {
    let held = decisions(fleet);
    held.iter().all(|a| held.iter().all(|b| a == b))
}

/// Each decided truck holds one of the openings given.
pub fn valid(fleet: &Fleet, openings: &[u8]) -> bool {
    decisions(fleet).iter().all(|held| openings.contains(held))
}

/// Each truck is decided or stopped, in a round of at most `round`.
pub fn finished_by(fleet: &Fleet, round: u64) -> bool {
    fleet.trucks_below_n().iter().all(|truck| match truck.state {
        State::Running => false,
        State::Stopped(r) | State::Decided(r) => r as u64 <= round,
    })
}
