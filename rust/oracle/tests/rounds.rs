//! The rules of a round, worked by hand, and the refusals of a step.

use std::collections::BTreeSet;

use oracle::fleet::record_refused;
use oracle::gen::{self, Rng};
use oracle::Cycle::TwoRound;
use oracle::*;

/// Steps that must all be accepted, from a start.
fn after(openings: &[u8], rounds: &[&[u32]]) -> Fleet {
    let (number, mut fleet) = start(openings.len() as u64, openings);
    assert_eq!(number, 0);
    for words in rounds {
        let (number, next) = step(TwoRound, &fleet, words);
        assert_eq!(number, 0);
        assert_eq!(fast::step(&fleet, words), (0, next));
        fleet = next;
    }
    fleet
}

fn truck(opening: u8, estimate: u8, mark: bool, heard: Heard, state: State) -> Truck {
    Truck { opening, estimate, mark, heard, unwilling: false, state, sent: Sent::default() }
}

/// The same truck, having sent so many proposals and vetoes.
fn sent(proposals: u8, vetoes: u8, truck: Truck) -> Truck {
    Truck { sent: Sent { proposals, vetoes }, ..truck }
}

use Heard::{Nothing, One, Several};
use State::{Decided, Running, Stopped};

const SILENT: [u32; 5] = [0; 5];
const BOTH: [u32; 5] = [0, 0b11, 0, 0, 0];

#[test]
fn a_passive_truck_takes_the_least_heard_and_not_its_own() {
    let fleet = after(&[1, 5], &[&[0, 0b10, 0, 0, 0]]);
    assert_eq!(fleet.trucks[0], truck(1, 5, false, One, Running));
    assert_eq!(fleet.trucks[1], sent(1, 0, truck(5, 5, false, One, Running)));
}

#[test]
fn equal_values_are_one_value() {
    let fleet = after(&[4, 4], &[&BOTH]);
    assert_eq!(fleet.trucks[0], sent(1, 0, truck(4, 4, false, One, Running)));
    let fleet = after(&[4, 4], &[&BOTH, &SILENT]);
    assert_eq!(fleet.trucks[0], sent(1, 0, truck(4, 4, false, Nothing, Decided(2))));
}

#[test]
fn estimates_of_before_the_round_are_sent() {
    // Truck 0 takes 1 from truck 2; truck 1 hears only truck 0, which sent 9.
    let fleet = after(&[9, 7, 1], &[&[0, 0b101, 0, 0, 0b100, 0]]);
    assert_eq!(fleet.trucks[0].estimate, 1);
    assert_eq!(fleet.trucks[1], truck(7, 9, false, One, Running));
}

#[test]
fn a_mark_keeps_the_estimate_and_the_memory_keeps_the_values() {
    let fleet = after(&[3, 5], &[&[0, 0b11, 0b11, 0, 0]]);
    assert_eq!(fleet.trucks[0], sent(1, 0, truck(3, 3, true, Several, Running)));
    assert_eq!(fleet.trucks[1], sent(1, 0, truck(5, 5, true, Several, Running)));
    let fleet = after(&[3, 5], &[&[0, 0b01, 0b11, 0, 0]]);
    assert_eq!(fleet.trucks[1], truck(5, 5, true, One, Running));
    let fleet = after(&[3, 5], &[&[0, 0, 0b10, 0, 0]]);
    assert_eq!(fleet.trucks[1], truck(5, 5, true, Nothing, Running));
}

#[test]
fn silence_changes_nothing() {
    let fleet = after(&[3, 5], &[&SILENT, &SILENT]);
    assert_eq!(fleet.trucks_below_n(), [Truck::opened(3), Truck::opened(5)]);
    assert_eq!(fleet.done, 2);
    // Losses of trucks that don't send do nothing.
    let lossy = [0, 0b01, 0, 0b10, 0];
    let fleet = after(&[3, 5], &[&lossy, &SILENT]);
    assert_eq!(fleet.trucks[0].state, Decided(2));
    assert_eq!(fleet.trucks[1], truck(5, 3, false, Nothing, Decided(2)));
}

#[test]
fn a_truck_that_does_not_send_does_not_hear_itself() {
    let fleet = after(&[3, 5], &[&[0, 0b01, 0, 0, 0b01], &SILENT]);
    assert_eq!(fleet.trucks[0].state, Decided(2));
    assert_eq!(fleet.trucks[1], Truck::opened(5));
}

#[test]
fn stopping_in_a_proposal_round() {
    // Truck 0 would have sent the least value.
    let fleet = after(&[1, 5], &[&[0b01, 0b11, 0b01, 0, 0]]);
    assert_eq!(fleet.trucks[0], truck(1, 1, false, Nothing, Stopped(1)));
    assert_eq!(fleet.trucks[1], sent(1, 0, truck(5, 5, false, One, Running)));
    // It keeps its round, and its bits do nothing any more.
    let fleet =
        after(&[1, 5], &[&[0b01, 0b11, 0, 0, 0], &[0b01, 0, 0, 0, 0], &[0b01, 0b01, 0b01, 0, 0]]);
    assert_eq!(fleet.trucks[0], truck(1, 1, false, Nothing, Stopped(1)));
    assert_eq!(fleet.trucks[1].state, Decided(2));
}

#[test]
fn stopping_in_a_veto_round_empties_the_memory_and_sends_no_veto() {
    // Truck 0 has a mark, truck 1 heard one value.
    let proposal = [0, 0b10, 0b01, 0, 0];
    let fleet = after(&[1, 5], &[&proposal]);
    assert_eq!(fleet.trucks[0], truck(1, 1, true, One, Running));
    let fleet = after(&[1, 5], &[&proposal, &[0b01, 0, 0, 0, 0]]);
    assert_eq!(fleet.trucks[0], truck(1, 1, false, Nothing, Stopped(2)));
    assert_eq!(fleet.trucks[1].state, Decided(2));
    assert!(!record_refused(TwoRound, &fleet));
}

#[test]
fn vetoes_come_from_marks_and_from_several_values() {
    // Truck 0 has a mark; truck 1 has one value. Active bits do nothing.
    let proposal = [0, 0b10, 0b01, 0, 0];
    for active in 0..4 {
        let heard = after(&[1, 5], &[&proposal, &[0, active, 0, 0, 0]]);
        assert_eq!(heard.trucks[1], sent(1, 0, truck(5, 5, false, Nothing, Running)));
        // The veto is lost on truck 1; truck 0 always hears its own.
        let lost = after(&[1, 5], &[&proposal, &[0, active, 0, 0, 0b01]]);
        assert_eq!(lost.trucks[1], sent(1, 0, truck(5, 5, false, Nothing, Decided(2))));
        assert_eq!(lost.trucks[0], sent(0, 1, truck(1, 1, false, Nothing, Running)));
    }
    // Truck 0 heard several, truck 1 only its own.
    let proposal = [0, 0b11, 0, 0, 0b01];
    let heard = after(&[1, 5], &[&proposal, &SILENT]);
    assert_eq!(heard.trucks[1].state, Running);
    let lost = after(&[1, 5], &[&proposal, &[0, 0, 0, 0, 0b01]]);
    assert_eq!(lost.trucks[1], sent(1, 0, truck(5, 5, false, Nothing, Decided(2))));
}

#[test]
fn a_mark_in_the_veto_round_forbids_deciding() {
    let fleet = after(&[4, 4], &[&BOTH, &[0, 0, 0b10, 0, 0]]);
    assert_eq!(fleet.trucks[0].state, Decided(2));
    assert_eq!(fleet.trucks[1], sent(1, 0, Truck::opened(4)));
}

#[test]
fn a_decided_truck_is_out_of_it() {
    // Truck 0 decides 4, truck 1 is held back by a mark.
    let both = [0, 0b11, 0, 0, 0];
    let held = [0, 0, 0b10, 0, 0];
    let fleet = after(&[4, 4], &[&both, &held, &[0b01, 0b01, 0b01, 0, 0]]);
    assert_eq!(fleet.trucks[0], sent(1, 0, truck(4, 4, false, Nothing, Decided(2))));
    // Truck 0 sent nothing in round 3, so truck 1 heard nothing.
    assert_eq!(fleet.trucks[1], sent(1, 0, truck(4, 4, false, Nothing, Running)));
    let fleet = after(&[4, 4], &[&both, &held, &both, &SILENT, &both, &SILENT]);
    assert_eq!(fleet.trucks[0].state, Decided(2));
    assert_eq!(fleet.trucks[1].state, Decided(4));
    assert_eq!(fleet.done, 6);
}

#[test]
fn odd_rounds_done_take_any_memory_handed_in() {
    let (_, mut fleet) = start(2, &[3, 5]);
    fleet.done = 7;
    fleet.trucks[0] = truck(3, 9, false, One, Running);
    fleet.trucks[1] = truck(5, 2, false, Nothing, Decided(4));
    let (number, next) = step(TwoRound, &fleet, &SILENT);
    assert_eq!((number, next.done), (0, 8));
    assert_eq!(next.trucks[0], truck(3, 9, false, Nothing, Decided(8)));
    assert_eq!(next.trucks[1], fleet.trucks[1]);
}

#[test]
fn a_step_checks_7_14_8_6() {
    let (_, mut fleet) = start(2, &[3, 5]);
    let answers = |fleet: &Fleet| -> Vec<u8> {
        let rounds: [&[u32]; 4] = [&SILENT, &[0, 0, 0, 1, 0], &[4, 0, 0, 1, 0], &[0; 4]];
        rounds
            .iter()
            .map(|words| {
                let (number, next) = step(TwoRound, fleet, words);
                assert_eq!(fast::step(fleet, words), (number, next));
                assert!(number == 0 || next == *fleet);
                number
            })
            .collect()
    };
    assert_eq!(answers(&fleet), [0, 6, 8, 8]);
    fleet.done = 399;
    assert_eq!(answers(&fleet), [0, 6, 8, 8]);
    fleet.done = 400;
    assert_eq!(answers(&fleet), [14; 4]);
    fleet.done = 401;
    assert_eq!(answers(&fleet), [7; 4]);
    fleet.done = 400;
    fleet.trucks[1].estimate = 16;
    assert_eq!(answers(&fleet), [7; 4]);
}

#[test]
fn bad_rounds_meet_their_refusal() {
    let mut rng = Rng::new(11);
    for _ in 0..4_000 {
        let mut fleet = gen::record(TwoRound, &mut rng);
        fleet.done = fleet.done.min(399);
        if record_refused(TwoRound, &fleet) {
            continue;
        }
        let (words, refusal) = gen::bad_round(&mut rng, fleet.n as usize);
        assert_eq!(step(TwoRound, &fleet, &words), (refusal, fleet));
        assert_eq!(fast::step(&fleet, &words), (refusal, fleet));
    }
}

#[test]
fn places_from_n_on_are_neither_read_nor_changed() {
    let mut rng = Rng::new(12);
    let mut accepted = 0;
    for _ in 0..4_000 {
        let fleet = gen::record(TwoRound, &mut rng);
        let n = fleet.n as usize;
        assert!(!record_refused(TwoRound, &fleet));
        let habits = gen::habits(&mut rng);
        let words = gen::round(TwoRound, &mut rng, n, fleet.done as usize + 1, &habits);
        let (number, next) = step(TwoRound, &fleet, &words);
        assert_eq!(number, if fleet.done == 400 { 14 } else { 0 });
        assert_eq!(fast::step(&fleet, &words), (number, next));
        assert_eq!(next.trucks[n..], fleet.trucks[n..]);
        assert_eq!(next.n, fleet.n);
        let mut cleared = fleet;
        for truck in &mut cleared.trucks[n..] {
            *truck = Truck::opened(0);
        }
        assert!(step(TwoRound, &cleared, &words).1.same_below_n(&next));
        if number == 0 {
            assert_eq!(next.done, fleet.done + 1);
            assert!(!record_refused(TwoRound, &next));
            accepted += 1;
        } else {
            assert_eq!(next, fleet);
        }
    }
    assert!(accepted > 3_000);
}

#[test]
fn each_condition_of_7_is_met_alone() {
    let mut rng = Rng::new(13);
    let mut conditions = BTreeSet::new();
    for _ in 0..60 {
        for broken in gen::broken_records(TwoRound, &mut rng) {
            let fleet = broken.fleet;
            let n = fleet.n.clamp(1, 32) as usize;
            let habits = gen::habits(&mut rng);
            let words = gen::round(TwoRound, &mut rng, n, fleet.done as usize + 1, &habits);
            let (number, next) = step(TwoRound, &fleet, &words);
            assert_eq!(fast::step(&fleet, &words), (number, next));
            let label = format!("{} at {:?}", broken.condition, broken.place);
            assert_eq!(number, if broken.refused { 7 } else { 0 }, "{label}");
            if broken.refused {
                assert_eq!(next, fleet, "{label}");
                // Nothing else was wrong: one truck replaced, it is accepted.
                if let Some(place) = broken.place {
                    let mut mended = fleet;
                    mended.trucks[place] = Truck::opened(0);
                    assert_eq!(step(TwoRound, &mended, &words).0, 0, "{label}");
                }
            }
            conditions.insert(broken.condition);
        }
    }
    assert_eq!(conditions.len(), 33);
}
