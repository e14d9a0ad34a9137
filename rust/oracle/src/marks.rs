//! What a mark is worth: the four classes, grading, and calm.

use crate::cycle::Cycle;
use crate::recording::{read, Plain};
use crate::steps::{follow, radio, start, Radio};

/// Whether a round keeps each of the four.
#[derive(Clone, Copy, Debug, PartialEq, Eq)]
pub struct Classes {
    pub complete: bool,
    pub majority: bool,
    pub zero: bool,
    pub accurate: bool,
}

/// Every round of a plain form on the radio, by the rules from its openings.
pub fn radios(cycle: Cycle, plain: &Plain) -> Vec<Radio> {
    let (_, mut fleet) = start(plain.n as u64, &plain.openings);
    let mut list = Vec::new();
    for round in 1..=plain.rounds {
        list.push(radio(cycle, &fleet, plain.round(round)));
        fleet = follow(cycle, &fleet, plain.round(round));
    }
    list
}

/// Judges the running trucks of one round.
pub fn classes(radio: &Radio) -> Classes {
    let messages = radio.messages();
    let mut kept = Classes { complete: true, majority: true, zero: true, accurate: true };
    for i in radio.running_trucks() {
        let heard = radio.heard(i);
        let missed = radio.missed(i);
        let mark = radio.mark_bit[i];
        if missed > 0 && !mark {
            kept.complete = false;
        }
        if messages > 0 && 2 * heard <= messages && !mark {
            kept.majority = false;
        }
        if messages > 0 && heard == 0 && !mark {
            kept.zero = false;
        }
        if mark && missed == 0 {
            kept.accurate = false;
        }
    }
    kept
}

/// The classes of each round, round 1 first.
pub fn classes_of(cycle: Cycle, plain: &Plain) -> Vec<Classes> {
    radios(cycle, plain).iter().map(classes).collect()
}

/// Whether the marks are majority complete in every round.
pub fn majority_complete(cycle: Cycle, plain: &Plain) -> bool {
    classes_of(cycle, plain).iter().all(|c| c.majority)
}

/// Whether the marks are zero complete in every round.
pub fn zero_complete(cycle: Cycle, plain: &Plain) -> bool {
    classes_of(cycle, plain).iter().all(|c| c.zero)
}

/// Whether the marks are mixed, which is said of the two-round cycle: majority
/// complete in odd rounds and zero complete in even ones.
pub fn mixed(plain: &Plain) -> bool {
    first_not_mixed(plain).is_none()
}

/// The first round whose marks are less than that.
pub fn first_not_mixed(plain: &Plain) -> Option<usize> {
    let kept = classes_of(Cycle::TwoRound, plain);
    (1..=plain.rounds).find(|round| {
        let classes = kept[round - 1];
        !(if round % 2 == 1 { classes.majority } else { classes.zero })
    })
}

/// The first round that breaks each of complete, majority complete, zero
/// complete and accurate, or 0.
pub fn grade(cycle: Cycle, bytes: &[u8]) -> Result<[u16; 4], u8> {
    let kept = classes_of(cycle, &read(bytes)?);
    let first = |keeps: fn(&Classes) -> bool| match kept.iter().position(|c| !keeps(c)) {
        Some(index) => index as u16 + 1,
        None => 0,
    };
    Ok([first(|c| c.complete), first(|c| c.majority), first(|c| c.zero), first(|c| c.accurate)])
}

/// Whether a recording is calm from S with b: for five rounds, or for eleven in
/// the six-round cycle.
pub fn calm(cycle: Cycle, plain: &Plain, s: u64, b: u64) -> bool {
    if !(1..=400).contains(&s) || s + cycle.calm_span() > plain.rounds as u64 {
        return false;
    }
    let (first, last) = (s as usize - 1, (s + cycle.calm_span()) as usize - 1);
    radios(cycle, plain)[first..=last].iter().all(|radio| round_is_calm(radio, b))
}

/// What calm asks of each of its rounds.
pub fn round_is_calm(radio: &Radio, b: u64) -> bool {
    let running = radio.running_trucks();
    let senders = radio.messages() as u64;
    let few_senders = 1 <= senders && senders <= b;
    let no_false_mark = classes(radio).accurate;
    let heard_in_full = running.iter().all(|i| radio.missed(*i) == 0);
    no_false_mark
        && (!few_senders || heard_in_full)
        && (!radio.is_proposal() || running.is_empty() || few_senders)
}
