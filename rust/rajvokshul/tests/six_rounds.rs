//! The six-round cycle through the exported functions: runs worked out by hand from the change request. A crusher's bits come most
//! significant first, so that 3 is 0011 and 5 is 0101.

use rajvokshul::State::{Decided, Running, Stopped};
use rajvokshul::*;
use Cycle::SixRound;

/// Nobody is active, marked or stopped, and nothing is lost.
const QUIET: [u32; 5] = [0; 5];
/// Both trucks are active.
const BOTH: [u32; 5] = [0, 0b11, 0, 0, 0];
/// Truck 1 has a mark.
const MARK_1: [u32; 5] = [0, 0, 0b10, 0, 0];

/// Estimate, unwilling and state of a truck.
type End = (u8, bool, State);

fn ends(fleet: &Fleet) -> Vec<End> {
    fleet.iter().map(|truck| (truck.estimate, truck.unwilling, truck.state)).collect()
}

/// The fleet of two after some rounds of six, stepped; its recording runs to the same.
fn after(openings: [u8; 2], rounds: &[[u32; 5]]) -> Fleet {
    let mut recorder = Recorder::start_in(SixRound, &openings).unwrap();
    for round in rounds {
        recorder.step(round).unwrap();
    }
    let fleet = recorder.fleet().clone();
    assert_eq!(Fleet::run_in(SixRound, &recorder.recording()), Ok(fleet.clone()));
    assert_eq!(Fleet::from_bytes_in(SixRound, *fleet.as_bytes()), Ok(fleet.clone()));
    // this cycle counts no messages and remembers no values
    assert!(fleet.iter().all(|t| t.sent == Sent::default()));
    assert!(fleet.iter().all(|t| !t.mark && t.heard == Heard::Nothing));
    fleet
}

/// What two trucks come to after each of some rounds.
fn hold(openings: [u8; 2], course: &[([u32; 5], [End; 2])]) {
    let rounds: Vec<_> = course.iter().map(|(round, _)| *round).collect();
    for (k, (_, expected)) in course.iter().enumerate() {
        let kind = SixRound.round_kind(k as u16 + 1);
        assert_eq!(ends(&after(openings, &rounds[..=k])), expected, "round {}, {kind}", k + 1);
    }
}

#[test]
fn one_value_is_decided_after_six_rounds() {
    // both take 3 in prepare, and send together in rounds 4 and 5: whose bit is 1 is never unwilling
    let running = [(3, false, Running); 2];
    let mut course = vec![(BOTH, running)];
    course.extend([(QUIET, running); 4]);
    course.push((QUIET, [(3, false, Decided(6)); 2]));
    hold([3, 5], &course);
}

#[test]
fn a_bit_round_makes_one_unwilling_and_accept_brings_a_veto() {
    // both send in prepare; truck 1 keeps 5 for its mark
    hold(
        [3, 5],
        &[
            ([0, 0b11, 0b10, 0, 0], [(3, false, Running), (5, false, Running)]),
            // nobody has the bit worth 8
            (QUIET, [(3, false, Running), (5, false, Running)]),
            // the bit worth 4: truck 1 sends, truck 0 hears it
            (QUIET, [(3, true, Running), (5, false, Running)]),
            // the bit worth 2: truck 0 sends, though unwilling, and truck 1 misses it without a mark
            ([0, 0, 0, 0, 0b01], [(3, true, Running), (5, false, Running)]),
            // both have the bit worth 1
            (QUIET, [(3, true, Running), (5, false, Running)]),
            // truck 0 vetoes, so that truck 1 does not decide; both are willing again
            (QUIET, [(3, false, Running), (5, false, Running)]),
            // in the next cycle both send in prepare, and decide
            (BOTH, [(3, false, Running), (3, false, Running)]),
            (QUIET, [(3, false, Running), (3, false, Running)]),
            (QUIET, [(3, false, Running), (3, false, Running)]),
            (QUIET, [(3, false, Running), (3, false, Running)]),
            (QUIET, [(3, false, Running), (3, false, Running)]),
            (QUIET, [(3, false, Decided(12)), (3, false, Decided(12))]),
        ],
    );
}

#[test]
fn a_veto_that_is_missed_or_a_mark_in_accept() {
    // truck 0 holds 4, 0100, and truck 1 holds 0, which is unwilling from round 3 on
    let last = |round| ends(&after([4, 0], &[QUIET, QUIET, QUIET, QUIET, QUIET, round]));
    assert_eq!(last(QUIET), [(4, false, Running), (0, false, Running)]);
    // missed: truck 0 decides; missed with a mark: it does not
    assert_eq!(last([0, 0, 0, 0b10, 0]), [(4, false, Decided(6)), (0, false, Running)]);
    assert_eq!(last([0, 0, 0b01, 0b10, 0]), [(4, false, Running), (0, false, Running)]);
    // a mark holds back one of two willing trucks
    let rounds = [QUIET, QUIET, QUIET, QUIET, QUIET, MARK_1];
    assert_eq!(ends(&after([6, 6], &rounds)), [(6, false, Decided(6)), (6, false, Running)]);
}

#[test]
fn a_silent_prepare_decides() {
    assert_eq!(ends(&after([9, 9], &[QUIET; 6])), [(9, false, Decided(6)); 2]);
    // with different openings the bits tell
    assert_eq!(ends(&after([9, 8], &[QUIET; 6])), [(9, false, Running), (8, false, Running)]);
    assert_eq!(ends(&after([9, 8], &[QUIET; 5])), [(9, false, Running), (8, true, Running)]);
}

#[test]
fn a_mark_counts_where_the_own_bit_is_0() {
    // 5 is 0101: rounds 2 and 4 make a marked truck unwilling, rounds 3 and 5 do not
    for (round, unwilling) in [(2, true), (3, false), (4, true), (5, false)] {
        let mut rounds = [QUIET; 6];
        rounds[round - 1] = MARK_1;
        let heard = ends(&after([5, 5], &rounds[..round]));
        assert_eq!(heard, [(5, false, Running), (5, unwilling, Running)], "{round}");
        let state = if unwilling { Running } else { Decided(6) };
        assert_eq!(ends(&after([5, 5], &rounds)), [(5, false, state); 2], "{round}");
    }
    // a mark in prepare keeps the estimate
    let marked = [0, 0b01, 0b10, 0, 0];
    assert_eq!(ends(&after([3, 5], &[marked])), [(3, false, Running), (5, false, Running)]);
    assert_eq!(ends(&after([3, 5], &[[0, 0b01, 0, 0, 0]]))[1], (3, false, Running));
}

#[test]
fn stops_in_each_of_the_six_rounds() {
    // truck 1 holds 0, is unwilling from round 2 on, and stops; truck 0 holds 15
    for round in 1..=6 {
        let mut rounds = [QUIET; 12];
        rounds[round - 1] = [0b10, 0, 0b10, 0, 0];
        let before = ends(&after([15, 0], &rounds[..round - 1]));
        assert_eq!(before[1], (0, round > 2, Running), "{round}");
        let stopped = (0, false, Stopped(round as u16));
        assert_eq!(ends(&after([15, 0], &rounds[..round]))[1], stopped, "{round}");
        // no veto of it is left for accept
        assert_eq!(ends(&after([15, 0], &rounds)), [(15, false, Decided(6)), stopped], "{round}");
    }
}

#[test]
fn what_was_heard_and_sent_is_handed_on() {
    // both heard 3 and 5 in round 1 of two, and keep that through rounds 2 and 3 of six, in which truck 1 stops
    let mut fleet = Fleet::start(2, &[3, 5]).unwrap();
    fleet.step(BOTH).unwrap();
    fleet.step_in(SixRound, MARK_1).unwrap();
    assert_eq!(ends(&fleet), [(3, false, Running), (3, true, Running)]);
    let before = fleet.clone();
    // after an even number of rounds the two-round cycle asks for an empty memory
    assert_eq!(fleet.step(QUIET), Err(Refusal::Record));
    assert_eq!(fleet, before);
    fleet.step_in(SixRound, [0b10, 0, 0, 0, 0]).unwrap();
    assert_eq!(ends(&fleet), [(3, false, Running), (3, false, Stopped(3))]);
    for truck in &fleet {
        assert_eq!(truck.heard, Heard::Several);
        assert_eq!((truck.sent.proposals, truck.sent.vetoes), (1, 0));
    }
    // a stopped truck with a memory is no record of two rounds, but one of six
    assert_eq!(fleet.step(QUIET), Err(Refusal::Record));
    assert!(Fleet::from_bytes_in(SixRound, *fleet.as_bytes()).is_ok());
}

#[test]
fn willingness_is_handed_on() {
    // a mark makes truck 1 unwilling in round 2 of six; in rounds 3 and 4 of two both decide 3
    let mut fleet = after([3, 5], &[BOTH, MARK_1]);
    fleet.step([0, 0b01, 0, 0, 0]).unwrap();
    fleet.step(QUIET).unwrap();
    assert_eq!(ends(&fleet), [(3, false, Decided(4)), (3, true, Decided(4))]);
    // neither round 4 nor an unwilling truck that has decided is one of six
    assert_eq!(fleet.step_in(SixRound, QUIET), Err(Refusal::Record));
    assert!(Fleet::try_from(*fleet.as_bytes()).is_ok());
    // a stop in two rounds leaves willingness, too
    let mut fleet = after([3, 5], &[BOTH, MARK_1]);
    fleet.step([0b10, 0, 0, 0, 0]).unwrap();
    assert_eq!(ends(&fleet), [(3, false, Running), (3, true, Stopped(3))]);
    assert_eq!(fleet.step_in(SixRound, QUIET), Err(Refusal::Record));
}

#[test]
fn refusals_of_the_six_round_calls() {
    let c10 = [0x08, 0x02, 0x35, 0x33, 0x80, 0x00];
    for (recording, refusal) in [
        (&[][..], Refusal::ShortRecording),
        (&[0x84, 0x00], Refusal::TruckCount),
        (&[0x05, 0x91], Refusal::RoundCount),
        (&[0x08, 0x04], Refusal::RecordingLength),
        (&c10, Refusal::OwnLoss { round: 1, truck: 0 }),
    ] {
        assert_eq!(Fleet::run_in(SixRound, recording), Err(refusal));
        assert_eq!(grade_in(SixRound, recording), Err(refusal));
    }
    let mut fleet = Fleet::start(2, &[3, 5]).unwrap();
    for round in 1..=400 {
        let before = fleet.clone();
        assert_eq!(fleet.step_in(SixRound, [0; 4]), Err(Refusal::PlainRound));
        let own = fleet.step_in(SixRound, [0, 0, 0, 0, 0b10]);
        assert_eq!(own, Err(Refusal::OwnLoss { round, truck: 1 }));
        assert_eq!(fleet, before);
        fleet.step_in(SixRound, QUIET).unwrap();
    }
    assert_eq!(fleet.step_in(SixRound, [0; 4]), Err(Refusal::RoundsDone));
}

#[test]
fn marks_are_graded_in_the_cycle_that_is_asked_for() {
    // 3 and 5 miss each other throughout, without a mark: each hears itself where it sends. In round 3 truck 1 sends alone.
    let apart = write(2, 6, &[3, 5], &[0, 0b11, 0, 0b10, 0b01].repeat(6)).unwrap();
    let complete = Grades::default().with_first_break(Class::Complete, 1);
    let two = complete.with_first_break(Class::Majority, 1);
    assert_eq!(grade_in(SixRound, &apart), Ok(two.with_first_break(Class::Zero, 3)));
    let ended = ends(&Fleet::run_in(SixRound, &apart).unwrap());
    assert_eq!(ended, [(3, false, Decided(6)), (5, false, Decided(6))]);
    // in two rounds both decide in round 2, and nobody sends after
    assert_eq!(grade_in(Cycle::TwoRound, &apart), Ok(two));
    assert_eq!(grade(&apart), Ok(two));
}

#[test]
fn kinds_of_rounds() {
    let names = |cycle: Cycle| (1..=8).map(move |k| cycle.round_kind(k).to_string());
    let two = ["proposals", "vetoes"];
    assert!(names(Cycle::TwoRound).eq(two.into_iter().cycle().take(8)));
    let six = ["prepare", "bit 8", "bit 4", "bit 2", "bit 1", "accept", "prepare", "bit 8"];
    assert!(names(SixRound).eq(six));
    assert_eq!(SixRound.round_kind(400), RoundKind::Bit(2));
    let zeroth = Cycle::ALL.iter().map(|cycle| cycle.round_kind(0));
    assert!(zeroth.eq([RoundKind::Vetoes, RoundKind::Accept]));
    assert_eq!(Cycle::default(), Cycle::TwoRound);
}
