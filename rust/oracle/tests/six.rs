//! The six-round cycle: its rules worked by hand, refusal 7 by it, what the
//! generators reach, and its claims tried out.

use std::collections::{BTreeMap, BTreeSet};

use oracle::bytes::{self, record_bytes};
use oracle::fleet::record_refused;
use oracle::gen::{self, Limits, Rng, FULL, SMALL, TINY_SIX};
use oracle::lists::{agreed, decisions, finished_by, play, recording_of, taken, valid};
use oracle::marks::{classes_of, radios, zero_complete};
use oracle::steps::{follow, radio};
use oracle::*;
use Cycle::{SixRound, TwoRound};
use State::{Decided, Running, Stopped};

// Rounds worked by hand

/// Steps that must all be accepted, from a start.
fn after(openings: &[u8], rounds: &[&[u32]]) -> Fleet {
    let (number, mut fleet) = start(openings.len() as u64, openings);
    assert_eq!(number, 0);
    for words in rounds {
        let (number, next) = step(SixRound, &fleet, words);
        assert_eq!(number, 0);
        fleet = next;
    }
    fleet
}

/// Estimates and states of the trucks, and who is unwilling.
fn ends(fleet: &Fleet) -> Vec<(u8, State, bool)> {
    fleet.trucks_below_n().iter().map(|t| (t.estimate, t.state, t.unwilling)).collect()
}

const SILENT: [u32; 5] = [0; 5];
const BOTH: [u32; 5] = [0, 0b11, 0, 0, 0];
/// Neither hears the other.
const APART: [u32; 5] = [0, 0b11, 0, 0b10, 0b01];

#[test]
fn each_round_is_for_its_kind() {
    let kinds = [
        RoundKind::Prepare,
        RoundKind::Bit(8),
        RoundKind::Bit(4),
        RoundKind::Bit(2),
        RoundKind::Bit(1),
    ];
    for cycle in 0..66 {
        for (place, kind) in (1..).zip(kinds) {
            assert_eq!(SixRound.round_kind(6 * cycle + place), kind);
        }
        assert_eq!(SixRound.round_kind(6 * cycle + 6), RoundKind::Accept);
    }
    assert_eq!([1, 2, 399, 400].map(|round| TwoRound.round_kind(round)), {
        [RoundKind::Proposals, RoundKind::Vetoes, RoundKind::Proposals, RoundKind::Vetoes]
    });
}

#[test]
fn one_value_is_decided_after_six_rounds() {
    // 3 is 0011: both take it in prepare, both send in rounds 4 and 5, and accept is silent.
    let rounds = [&BOTH, &SILENT, &SILENT, &SILENT, &SILENT, &SILENT].map(|r| &r[..]);
    let fleet = after(&[3, 5], &rounds);
    assert_eq!(ends(&fleet), [(3, Decided(6), false); 2]);
    // Nothing of the two-round cycle changes.
    assert!(fleet.trucks_below_n().iter().all(|t| t.sent == Sent::default()));
    assert!(fleet.trucks_below_n().iter().all(Truck::memory_is_empty));
    let sends = |done: usize| radio(SixRound, &after(&[3, 5], &rounds[..done]), &SILENT).sends;
    assert_eq!(sends(1), [false, false]);
    assert_eq!(sends(2), [false, false]);
    assert_eq!(sends(3), [true, true]);
    assert_eq!(sends(4), [true, true]);
    assert_eq!(sends(5), [false, false]);
}

#[test]
fn bits_come_most_significant_first() {
    // Nobody is active, so that both keep their openings: 8 is 1000, and 7 is 0111.
    let silent = &SILENT[..];
    let sends = |done: usize| radio(SixRound, &after(&[8, 7], &vec![silent; done]), &SILENT).sends;
    assert_eq!(sends(1), [true, false]);
    assert_eq!(sends(2), [false, true]);
    assert_eq!(sends(3), [false, true]);
    assert_eq!(sends(4), [false, true]);
    // Truck 1 is unwilling from round 2 on, and truck 0 from round 3 on.
    assert_eq!(ends(&after(&[8, 7], &[silent; 2])), [(8, Running, false), (7, Running, true)]);
    assert_eq!(ends(&after(&[8, 7], &[silent; 3])), [(8, Running, true), (7, Running, true)]);
    assert_eq!(sends(5), [true, true]);
    assert_eq!(ends(&after(&[8, 7], &[silent; 6])), [(8, Running, false), (7, Running, false)]);
}

#[test]
fn an_unwilling_truck_sends_its_bits_all_the_same() {
    // 3 is 0011 and 5 is 0101: truck 1 is heard in round 3, truck 0 in round 4.
    let silent = &SILENT[..];
    let third = after(&[3, 5], &[silent; 3]);
    assert_eq!(ends(&third), [(3, Running, true), (5, Running, false)]);
    assert_eq!(radio(SixRound, &third, &SILENT).sends, [true, false]);
    let fourth = after(&[3, 5], &[silent; 4]);
    assert_eq!(ends(&fourth), [(3, Running, true), (5, Running, true)]);
    // In round 5 the bit of both is 1.
    assert_eq!(radio(SixRound, &fourth, &SILENT).sends, [true, true]);
}

#[test]
fn active_bits_count_in_prepare_only() {
    // Estimate 0 has no bit that is 1; active bits make nobody send after prepare.
    let both = &BOTH[..];
    for done in 1..6 {
        assert_eq!(radio(SixRound, &after(&[0, 0], &vec![both; done]), &BOTH).sends, [false; 2]);
    }
    assert_eq!(radio(SixRound, &after(&[0, 0], &[]), &BOTH).sends, [true; 2]);
    assert_eq!(ends(&after(&[0, 0], &[both; 6])), [(0, Decided(6), false); 2]);
}

#[test]
fn prepare_takes_the_least_value_heard() {
    // A passive truck does not hear itself.
    assert_eq!(ends(&after(&[1, 5], &[&[0, 0b10, 0, 0, 0]]))[0].0, 5);
    // A marked truck keeps its estimate, and so does one that hears nothing.
    assert_eq!(ends(&after(&[9, 5], &[&[0, 0b11, 0b01, 0, 0]]))[0].0, 9);
    assert_eq!(ends(&after(&[9, 5], &[&[0, 0b10, 0, 0b10, 0]]))[0].0, 9);
    // Values of before the round are sent.
    let fleet = after(&[9, 7, 1], &[&[0, 0b101, 0, 0, 0b100, 0]]);
    assert_eq!(ends(&fleet).iter().map(|end| end.0).collect::<Vec<_>>(), [1, 9, 1]);
    // A mark in prepare makes nobody unwilling.
    assert_eq!(ends(&after(&[9, 5], &[&[0, 0b11, 0b11, 0, 0]])), {
        [(9, Running, false), (5, Running, false)]
    });
}

#[test]
fn a_silent_prepare_lets_trucks_decide() {
    let silent = &SILENT[..];
    assert_eq!(ends(&after(&[6, 6], &[silent; 6])), [(6, Decided(6), false); 2]);
    let one = &[0; 4][..];
    assert_eq!(ends(&after(&[15], &[one; 6])), [(15, Decided(6), false)]);
}

#[test]
fn marks_in_bit_rounds() {
    // Of 6, which is 0110, the bits of rounds 3 and 4 are 1: there a mark changes nothing.
    let silent = &SILENT[..];
    for marked in 2..=5usize {
        let mut rounds = vec![silent; 6];
        rounds[marked - 1] = &[0, 0, 0b10, 0, 0];
        let listens = marked == 2 || marked == 5;
        let fleet = after(&[6, 6], &rounds[..marked]);
        assert_eq!(ends(&fleet), [(6, Running, false), (6, Running, listens)], "{marked}");
        // An unwilling truck vetoes, and so nobody decides.
        let state = if listens { Running } else { Decided(6) };
        assert_eq!(ends(&after(&[6, 6], &rounds)), [(6, state, false); 2], "{marked}");
    }
}

#[test]
fn messages_missed_make_nobody_unwilling() {
    // Each hears itself alone throughout: both decide their own, and zero completeness breaks in round 3.
    let fleet = after(&[3, 5], &[&APART[..]; 6]);
    assert_eq!(ends(&fleet), [(3, Decided(6), false), (5, Decided(6), false)]);
    let bytes = write(2, 6, &[3, 5], &APART.repeat(6)).unwrap();
    assert_eq!(grade(SixRound, &bytes), Ok([1, 1, 3, 0]));
    assert_eq!(run(SixRound, &bytes), (0, fleet));
    // With the mark that is then due, truck 0 is unwilling, and its veto makes due a mark of truck 1.
    let marked = [0, 0b11, 0b01, 0b10, 0b01];
    let fleet = after(&[3, 5], &[&APART, &APART, &marked, &APART, &APART]);
    assert_eq!(ends(&fleet), [(3, Running, true), (5, Running, false)]);
    assert_eq!(radio(SixRound, &fleet, &APART).sends, [true, false]);
}

#[test]
fn accept() {
    // Truck 0 holds 4 and truck 1 holds 0, so that truck 1 is unwilling after round 3.
    let silent = &SILENT[..];
    let last = |words: [u32; 5]| {
        let rounds = [silent, silent, silent, silent, silent, &words];
        ends(&after(&[4, 0], &rounds))
    };
    // Truck 0 hears the veto; or misses it, and decides; or misses it with a mark.
    assert_eq!(last(SILENT), [(4, Running, false), (0, Running, false)]);
    assert_eq!(last([0, 0, 0, 0b10, 0]), [(4, Decided(6), false), (0, Running, false)]);
    assert_eq!(last([0, 0, 0b01, 0b10, 0]), [(4, Running, false), (0, Running, false)]);
    // A false mark holds back a willing truck in silence.
    let mut rounds = [silent; 6];
    rounds[5] = &[0, 0, 0b10, 0, 0];
    assert_eq!(ends(&after(&[6, 6], &rounds)), [(6, Decided(6), false), (6, Running, false)]);
}

#[test]
fn stops_in_each_of_the_six_rounds() {
    // 15 is 1111: truck 1 would send in every round but accept, where nobody does.
    let both = &BOTH[..];
    for round in 1..=6usize {
        let mut rounds = vec![both; 12];
        rounds[round - 1] = &[0b10, 0b11, 0b11, 0, 0];
        let stopped = after(&[15, 15], &rounds[..round]);
        assert_eq!(stopped.trucks[1].state, Stopped(round as u16));
        let radio = radios(
            SixRound,
            &recording_of(&List {
                n: 2,
                openings: vec![15, 15],
                steps: rounds[..round].iter().map(|words| words.to_vec()).collect(),
            }),
        );
        let last = &radio[round - 1];
        assert_eq!(last.running, [true, false]);
        assert_eq!(last.sends, [round != 6, false]);
        // Its mark bit does nothing; truck 0's does in accept alone, since it sends in all others.
        let end = after(&[15, 15], &rounds);
        assert_eq!(end.trucks[1].state, Stopped(round as u16));
        assert_eq!(end.trucks[0].state, Decided(if round == 6 { 12 } else { 6 }));
    }
}

#[test]
fn a_truck_that_stops_is_willing_and_keeps_its_memory() {
    let (_, mut fleet) = start(2, &[3, 5]);
    let handed = Truck {
        mark: true,
        heard: Heard::Several,
        unwilling: true,
        sent: Sent { proposals: 250, vetoes: 7 },
        ..Truck::opened(5)
    };
    for done in [2, 3, 4, 5, 398, 399] {
        fleet.done = done;
        fleet.trucks[1] = handed;
        let (number, next) = step(SixRound, &fleet, &[0b10, 0, 0, 0, 0]);
        assert_eq!(number, 0);
        let stopped = Truck { unwilling: false, state: Stopped(done + 1), ..handed };
        assert_eq!(next.trucks[1], stopped);
        // It sends neither its bit nor, in accept, its veto.
        assert!(!radio(SixRound, &fleet, &[0b10, 0, 0, 0, 0]).sends[1]);
    }
}

#[test]
fn decided_trucks_are_out_of_it() {
    let silent = &SILENT[..];
    let mut rounds = [silent; 12];
    // A mark holds truck 1 back in round 6; every bit of truck 0 is set after.
    rounds[5] = &[0, 0, 0b10, 0, 0];
    rounds[6] = &[0b01, 0b01, 0b01, 0b10, 0];
    rounds[8] = &[0b01, 0b01, 0b01, 0b10, 0];
    let fleet = after(&[6, 6], &rounds);
    assert_eq!(ends(&fleet), [(6, Decided(6), false), (6, Decided(12), false)]);
}

#[test]
fn bits_are_messages_that_are_graded() {
    // Truck 0 misses truck 1's bit in round 2: of two messages it hears its own, and then of one none.
    let grades = |openings: &[u8]| {
        let mut words = SILENT.repeat(2);
        words[5 + 3] = 0b10;
        grade(SixRound, &write(2, 2, openings, &words).unwrap()).unwrap()
    };
    assert_eq!(grades(&[8, 8]), [2, 2, 0, 0]);
    assert_eq!(grades(&[7, 8]), [2, 2, 2, 0]);
    assert_eq!(grades(&[8, 7]), [0; 4]);
    // A mark in a round without messages is false, in any of the six rounds.
    for round in 1..=6 {
        let mut words = SILENT.repeat(6);
        words[5 * (round - 1) + 2] = 0b01;
        let bytes = write(2, 6, &[0, 0], &words).unwrap();
        assert_eq!(grade(SixRound, &bytes), Ok([0, 0, 0, round as u16]));
    }
}

// Refusal 7

/// Every number of rounds done, each state, willing and unwilling.
#[test]
fn refusal_7_of_willingness_and_rounds() {
    for done in 0..=401u16 {
        let states = (0..=404).flat_map(|round| [Stopped(round), Decided(round)]);
        for state in states.chain([Running]) {
            for unwilling in [false, true] {
                let mut fleet = Fleet { n: 3, done, ..Fleet::blank() };
                fleet.trucks[2] = Truck { state, unwilling, ..Truck::opened(5) };
                let good_round = match state {
                    Running => true,
                    Stopped(round) => 1 <= round && round <= done,
                    Decided(round) => 6 <= round && round <= done && round % 6 == 0,
                };
                let between = [2, 3, 4, 5].contains(&(done % 6));
                let good_will = !unwilling || (state == Running && between);
                let expected = done == 401 || !good_round || !good_will;
                assert_eq!(record_refused(SixRound, &fleet), expected, "{fleet:?}");
            }
        }
    }
}

#[test]
fn each_condition_of_7_is_met_alone() {
    let mut rng = Rng::new(81);
    let mut conditions = BTreeSet::new();
    for _ in 0..60 {
        for broken in gen::broken_records(SixRound, &mut rng) {
            let fleet = broken.fleet;
            let n = fleet.n.clamp(1, 32) as usize;
            let habits = gen::habits(&mut rng);
            let words = gen::round(SixRound, &mut rng, n, fleet.done as usize + 1, &habits);
            let (number, next) = step(SixRound, &fleet, &words);
            let label = format!("{} at {:?}", broken.condition, broken.place);
            assert_eq!(number, if broken.refused { 7 } else { 0 }, "{label}");
            if broken.refused {
                assert_eq!(next, fleet, "{label}");
                if let Some(place) = broken.place {
                    let mut mended = fleet;
                    mended.trucks[place] = Truck::opened(0);
                    assert_eq!(step(SixRound, &mended, &words).0, 0, "{label}");
                }
            }
            conditions.insert(broken.condition);
        }
    }
    assert_eq!(conditions.len(), 19);
}

#[test]
fn a_step_checks_7_14_8_6() {
    let (_, mut fleet) = start(2, &[3, 5]);
    let answers = |fleet: &Fleet| {
        let rounds: [&[u32]; 4] = [&SILENT, &[0, 0, 0, 1, 0], &[4, 0, 0, 1, 0], &[0; 4]];
        rounds.map(|words| {
            let (number, next) = step(SixRound, fleet, words);
            assert!(number == 0 || next == *fleet);
            number
        })
    };
    assert_eq!(answers(&fleet), [0, 6, 8, 8]);
    fleet.done = 399;
    fleet.trucks[0].unwilling = true;
    assert_eq!(answers(&fleet), [0, 6, 8, 8]);
    fleet.done = 400;
    assert_eq!(answers(&fleet), [14; 4]);
    fleet.done = 396;
    assert_eq!(answers(&fleet), [7; 4]);
    fleet.done = 400;
    fleet.trucks[1].estimate = 16;
    assert_eq!(answers(&fleet), [7; 4]);
}

// The other cycle's part

/// A six-round step changes no memory and no count, and is the same whatever
/// they are.
#[test]
fn memory_and_counts_are_handed_on_unread() {
    let mut rng = Rng::new(82);
    let mut refused_by_two = 0;
    for _ in 0..6_000 {
        let fleet = gen::record(SixRound, &mut rng);
        let n = fleet.n as usize;
        let habits = gen::habits(&mut rng);
        let words = gen::round(SixRound, &mut rng, n, fleet.done as usize + 1, &habits);
        let (number, next) = step(SixRound, &fleet, &words);
        assert_eq!(number, if fleet.done == 400 { 14 } else { 0 });
        assert_eq!(next.trucks[n..], fleet.trucks[n..]);
        for (before, after) in fleet.trucks.iter().zip(&next.trucks) {
            assert_eq!(
                (before.mark, before.heard, before.sent, before.opening),
                (after.mark, after.heard, after.sent, after.opening)
            );
        }
        let mut other = fleet;
        for truck in &mut other.trucks {
            *truck = Truck { sent: Sent::default(), ..truck.with_empty_memory() };
        }
        let (other_number, other_next) = step(SixRound, &other, &words);
        assert_eq!((number, ends(&next)), (other_number, ends(&other_next)));
        if number == 0 {
            assert!(!record_refused(SixRound, &next));
        }
        refused_by_two += record_refused(TwoRound, &fleet) as usize;
    }
    assert!((1_000..6_000).contains(&refused_by_two), "{refused_by_two}");
}

/// A two-round step changes no willingness, and is the same whatever that is.
#[test]
fn willingness_is_handed_on_unread() {
    let mut rng = Rng::new(83);
    let mut refused_by_six = 0;
    for _ in 0..6_000 {
        let fleet = gen::record(TwoRound, &mut rng);
        let habits = gen::habits(&mut rng);
        let words =
            gen::round(TwoRound, &mut rng, fleet.n as usize, fleet.done as usize + 1, &habits);
        let (number, next) = step(TwoRound, &fleet, &words);
        let mut flipped = fleet;
        flipped.trucks.iter_mut().for_each(|truck| truck.unwilling = !truck.unwilling);
        let (flipped_number, mut flipped_next) = step(TwoRound, &flipped, &words);
        flipped_next.trucks.iter_mut().for_each(|truck| truck.unwilling = !truck.unwilling);
        assert_eq!((number, next), (flipped_number, flipped_next));
        let unwilling = |fleet: &Fleet| fleet.trucks.map(|truck| truck.unwilling);
        assert_eq!(unwilling(&next), unwilling(&fleet));
        refused_by_six += record_refused(SixRound, &fleet) as usize;
    }
    assert!((1_000..6_000).contains(&refused_by_six), "{refused_by_six}");
}

/// A record handed from one cycle to the other, by hand.
#[test]
fn a_record_that_changes_its_cycle() {
    // Two-round: both hear 3 and 5 in round 1, and remember it.
    let (_, fleet) = step(TwoRound, &start(2, &[3, 5]).1, &BOTH);
    // The six-round cycle does not read that. Round 2 is for the bit worth 8: nobody sends, and a mark makes truck 1 unwilling.
    let (number, fleet) = step(SixRound, &fleet, &[0, 0, 0b10, 0, 0]);
    assert_eq!(number, 0);
    let memory = |t: &Truck| (t.mark, t.heard, t.sent.proposals, t.unwilling);
    assert_eq!(memory(&fleet.trucks[0]), (false, Heard::Several, 1, false));
    assert_eq!(memory(&fleet.trucks[1]), (false, Heard::Several, 1, true));
    // Two rounds are done, so that the two-round cycle refuses the memory.
    assert_eq!(step(TwoRound, &fleet, &SILENT).0, 7);
    // After one more six-round step it takes it: both veto in round 4. Willingness stays.
    let (_, fleet) = step(SixRound, &fleet, &SILENT);
    let (number, fleet) = step(TwoRound, &fleet, &SILENT);
    assert_eq!(number, 0);
    assert_eq!(memory(&fleet.trucks[1]), (false, Heard::Nothing, 1, true));
    assert_eq!(fleet.trucks[1].sent.vetoes, 1);
    // Two more two-round rounds, in which truck 0 sends: both decide 3 in round 6, and truck 1 still unwilling.
    let (_, fleet) = step(TwoRound, &fleet, &[0, 0b01, 0, 0, 0]);
    let (number, fleet) = step(TwoRound, &fleet, &SILENT);
    assert_eq!(number, 0);
    assert_eq!(ends(&fleet), [(3, Decided(6), false), (3, Decided(6), true)]);
    // That is no record of the six-round cycle.
    assert_eq!(step(SixRound, &fleet, &SILENT).0, 7);
}

/// Lists that change the cycle: 7 meets some of them, and a refused step leaves
/// the record.
#[test]
fn lists_that_change_the_cycle() {
    let mut rng = Rng::new(84);
    let mut met = BTreeMap::new();
    for _ in 0..4_000 {
        let list = gen::list(SixRound, &mut rng, TINY_SIX);
        let changes = rng.pick(&[8, 64, 128]);
        let mut cycles = Vec::new();
        let mut now = rng.pick(&Cycle::ALL);
        for _ in &list.steps {
            if rng.chance(changes) {
                now = rng.pick(&Cycle::ALL);
            }
            cycles.push(now);
        }
        let (numbers, _) = play(&list, |place| cycles[place]).unwrap();
        for (cycle, number) in cycles.iter().zip(numbers) {
            *met.entry((*cycle, number)).or_insert(0) += 1;
        }
    }
    let expected: BTreeSet<_> = Cycle::ALL
        .into_iter()
        .flat_map(|cycle| [0, 6, 7, 8].map(|number| (cycle, number)))
        .collect();
    assert_eq!(met.keys().copied().collect::<BTreeSet<_>>(), expected);
    assert!(met.values().all(|count| *count > 500), "{met:?}");
}

// What the generators reach

/// Names of what happens to a running truck in a round of six.
fn events(before: &Truck, after: &Truck, radio: &Radio, i: usize) -> Vec<String> {
    let (mark, heard, missed) = (radio.mark_bit[i], radio.heard(i), radio.missed(i));
    let mut list = vec![];
    let mut note = |holds: bool, name: &str| {
        if holds {
            list.push(name.to_string());
        }
    };
    if !radio.running[i] {
        note(true, &format!("stops in {:?}", radio.kind));
        note(before.unwilling, "stops unwilling");
        return list;
    }
    note(mark && missed == 0, "false mark");
    note(mark && missed > 0, "true mark");
    note(!mark && missed > 0 && heard == 0, "hears none of some unmarked");
    match radio.kind {
        RoundKind::Prepare => {
            note(radio.sends[i], "proposes");
            note(radio.messages() == 0, "silent prepare");
            note(after.estimate < before.estimate, "takes a lower value");
            note(after.estimate > before.estimate, "takes a higher value");
            note(mark && heard > 0, "keeps its estimate for a mark");
            note(!mark && heard == 0, "keeps its estimate in silence");
        }
        RoundKind::Bit(worth) => {
            let becomes = !before.unwilling && after.unwilling;
            note(radio.sends[i], &format!("sends {worth}"));
            note(radio.sends[i] && before.unwilling, "sends unwilling");
            note(
                radio.sends[i] && mark && !before.unwilling,
                "stays willing with a mark of its 1-bit",
            );
            note(
                radio.sends[i] && heard > 1 && !before.unwilling,
                "stays willing with others heard",
            );
            note(becomes && !mark, &format!("unwilling by a message of {worth}"));
            note(becomes && heard == 0, &format!("unwilling by a mark of {worth}"));
            note(becomes && heard > 0 && mark, "unwilling by both");
            note(before.unwilling && !radio.sends[i] && heard > 0, "unwilling again");
            note(before.unwilling && heard == 0 && !mark, "unwilling still");
            note(!radio.sends[i] && heard == 0 && !mark && missed > 0, "misses and stays willing");
        }
        RoundKind::Accept => {
            let decides = after.state != State::Running;
            note(before.unwilling, "vetoes");
            note(before.unwilling && heard == 1, "hears its own veto alone");
            note(decides, "decides");
            note(decides && missed > 0, "decides with a veto missed");
            note(decides && before.estimate != before.opening, "decides another's");
            note(!before.unwilling && heard > 0, "held back by a veto");
            note(!before.unwilling && heard == 0 && mark, "held back by a mark");
        }
        RoundKind::Proposals | RoundKind::Vetoes => unreachable!(),
    }
    list
}

#[test]
fn every_branch_of_the_rules_is_taken() {
    let mut rng = Rng::new(85);
    let mut counts: BTreeMap<String, usize> = BTreeMap::new();
    let mut endings = BTreeMap::new();
    for k in 0..3_000 {
        let limits = if k % 40 == 0 { FULL } else { SMALL };
        let plain = gen::plain(SixRound, &mut rng, limits);
        let (_, mut fleet) = start(plain.n as u64, &plain.openings);
        for (index, radio) in radios(SixRound, &plain).iter().enumerate() {
            let next = follow(SixRound, &fleet, plain.round(index + 1));
            for i in 0..plain.n {
                let (before, after) = (&fleet.trucks[i], &next.trucks[i]);
                if before.is_running() {
                    for name in events(before, after, radio, i) {
                        *counts.entry(name).or_insert(0) += 1;
                    }
                } else {
                    assert_eq!(before, after);
                    *counts.entry("out of it already".to_string()).or_insert(0) += 1;
                }
            }
            fleet = next;
        }
        for truck in fleet.trucks_below_n() {
            let ending = match truck.state {
                Running => "running",
                Stopped(_) => "stopped",
                Decided(6) => "decided at once",
                Decided(_) => "decided later",
            };
            *endings.entry(ending).or_insert(0) += 1;
        }
    }
    assert_eq!(counts.len(), 43, "{counts:#?}");
    assert!(counts.values().all(|count| *count > 30), "{counts:#?}");
    assert_eq!(endings.len(), 4);
    assert!(endings.values().all(|count| *count > 500), "{endings:?}");
}

/// Accepted records of this cycle have unwilling trucks after 2, 3, 4 and 5
/// rounds of it, and memories and counts that the two-round cycle refuses.
#[test]
fn records_reach_their_limits() {
    let mut rng = Rng::new(86);
    let mut met: BTreeMap<(&str, u16), usize> = BTreeMap::new();
    for _ in 0..4_000 {
        let fleet = gen::record(SixRound, &mut rng);
        assert!(!record_refused(SixRound, &fleet));
        for truck in fleet.trucks_below_n() {
            let mut note = |holds: bool, name, of: u16| {
                if holds {
                    *met.entry((name, of)).or_insert(0) += 1;
                }
            };
            note(truck.unwilling, "unwilling", fleet.done % 6);
            note(!truck.unwilling && truck.is_running(), "willing", fleet.done % 6);
            note(!truck.is_running() && !truck.memory_is_empty(), "a memory at its end", 0);
            note(!truck.memory_is_empty(), "a memory", fleet.done % 2);
            note(truck.sent.proposals > 200, "too many proposals", 0);
            note(truck.sent.vetoes > 200, "too many vetoes", 0);
        }
    }
    assert_eq!(met.len(), 4 + 6 + 1 + 2 + 2, "{met:?}");
    assert!(met.values().all(|count| *count > 500), "{met:?}");
}

/// Each way to damage a byte of a record is met below n and from n on, and
/// refused below n.
#[test]
fn damaged_bytes_below_n_are_refused() {
    let mut rng = Rng::new(87);
    let mut met = BTreeMap::new();
    for _ in 0..4_000 {
        let damaged = gen::damaged_record(SixRound, &mut rng);
        let n = damaged.fleet.n as usize;
        let habits = gen::habits(&mut rng);
        let number = damaged.fleet.done as usize + 1;
        let words = gen::round(SixRound, &mut rng, n, number, &habits);
        let (number, next) = step(SixRound, &damaged.fleet, &words);
        assert_eq!(number, 0, "{}", damaged.how);
        let mut lent = damaged.bytes;
        let answer = bytes::step(&mut lent, &words, |f, w| step(SixRound, f, w));
        if damaged.refused {
            assert_eq!((answer, lent), (7, damaged.bytes), "{}", damaged.how);
        } else {
            let end = bytes::place_of(n);
            assert_eq!((answer, &lent[..end]), (0, &record_bytes(&next)[..end]));
            assert_eq!(lent[end..], damaged.bytes[end..]);
        }
        *met.entry((damaged.how, damaged.refused)).or_insert(0) += 1;
    }
    assert_eq!(met.len(), 2 * 5, "{met:?}");
    assert!(met.values().all(|count| *count > 50), "{met:?}");
}

// The claims

/// Plays a list in this cycle and compares it with the run of its recording.
fn played_as_run(list: &List) -> Fleet {
    let (numbers, fleet) = play(list, |_| SixRound).unwrap();
    let plain = recording_of(list);
    let bytes = write(list.n, plain.rounds as u64, &plain.openings, &plain.words).unwrap();
    assert_eq!(run(SixRound, &bytes), (0, fleet));
    for (number, is_taken) in numbers.iter().zip(taken(list)) {
        assert_eq!(*number == 0, is_taken);
        assert!([0, 14, 8, 6].contains(number));
    }
    assert!(!record_refused(SixRound, &fleet));
    fleet
}

#[test]
fn a_list_is_its_recording() {
    let mut rng = Rng::new(88);
    for k in 0..2_000 {
        let list = match k {
            k if k % 100 == 0 => gen::long_list(SixRound, &mut rng, 6),
            _ => gen::list(SixRound, &mut rng, SMALL),
        };
        let fleet = played_as_run(&list);
        assert_eq!(fleet.done == 400, k % 100 == 0);
        // Every estimate is an opening, and no count changes, whatever the marks.
        assert!(fleet.trucks_below_n().iter().all(|t| list.openings.contains(&t.estimate)));
        assert!(fleet.trucks_below_n().iter().all(|t| t.sent == Sent::default()));
    }
}

#[test]
fn agreement_and_validity_under_zero_complete_marks() {
    let mut rng = Rng::new(89);
    let mut counts = [0; 4];
    for k in 0..20_000 {
        let limits = match k % 400 {
            0 => FULL,
            1..=60 => SMALL,
            _ => TINY_SIX,
        };
        let plain = gen::with_marks(SixRound, &mut rng, limits, gen::ZERO);
        assert!(zero_complete(SixRound, &plain));
        let fleet = if k % 8 == 0 {
            let bad = rng.pick(&[0, 40, 120]);
            played_as_run(&gen::list_around(&mut rng, &plain, bad))
        } else {
            run(SixRound, &gen::bytes_of(&plain)).1
        };
        assert!(agreed(&fleet) && valid(&fleet, &plain.openings), "{plain:?}");
        if decisions(&fleet).len() > 1 {
            let kept = classes_of(SixRound, &plain);
            let rounds: BTreeSet<_> = fleet
                .trucks_below_n()
                .iter()
                .filter_map(|t| if let Decided(round) = t.state { Some(round) } else { None })
                .collect();
            counts[0] += 1;
            counts[1] += kept.iter().any(|c| !c.majority) as usize;
            counts[2] += kept.iter().any(|c| !c.accurate) as usize;
            counts[3] += (rounds.len() > 1) as usize;
        }
    }
    assert!(counts.iter().all(|count| *count > 300), "{counts:?}");
}

#[test]
fn without_zero_complete_marks_there_is_disagreement() {
    let mut rng = Rng::new(90);
    let mut disagreements = 0;
    for _ in 0..10_000 {
        let plain = gen::plain(SixRound, &mut rng, TINY_SIX);
        let (_, fleet) = run(SixRound, &gen::bytes_of(&plain));
        if !agreed(&fleet) {
            assert!(!zero_complete(SixRound, &plain));
            disagreements += 1;
        }
    }
    assert!(disagreements > 100, "{disagreements}");
}

/// Two trucks, every round with zero complete marks from every state that can
/// be reached in three cycles.
#[test]
fn every_reachable_state_of_two_trucks() {
    let rounds: Vec<[u32; 5]> = (0..256u32)
        .map(|bits| {
            let pick = |place: u32| bits >> place & 3;
            [pick(0), pick(2), pick(4), (bits >> 6 & 1) << 1, bits >> 7 & 1]
        })
        .collect();
    let mut most = 0;
    for openings in [[3, 5], [0, 15], [7, 8], [9, 9], [12, 4]] {
        let mut reached = vec![start(2, &openings).1];
        for _ in 1..=18 {
            let mut next: BTreeMap<[u8; bytes::RECORD], Fleet> = BTreeMap::new();
            for fleet in &reached {
                for words in &rounds {
                    let radio = radio(SixRound, fleet, words);
                    if marks::classes(&radio).zero {
                        let after = follow(SixRound, fleet, words);
                        assert!(agreed(&after) && valid(&after, &openings), "{after:?}");
                        next.insert(record_bytes(&after), after);
                    }
                }
            }
            reached = next.into_values().collect();
            most = most.max(reached.len());
        }
    }
    assert!(most > 400, "{most}");
}

// Calm

#[test]
fn calm_wants_eleven_rounds() {
    let both = &BOTH[..];
    let plain =
        |rounds: usize| Plain { n: 2, rounds, openings: vec![3, 5], words: both.repeat(rounds) };
    assert!(calm(SixRound, &plain(11), 1, 2));
    assert!(!calm(SixRound, &plain(10), 1, 2));
    assert!(!calm(SixRound, &plain(11), 2, 2));
    assert!(calm(SixRound, &plain(12), 2, 2));
    assert!(!calm(SixRound, &plain(12), 0, 2) && !calm(SixRound, &plain(12), u64::MAX, 2));
    // Two senders are more than b, in prepare and in bit rounds; in bit rounds that is no matter.
    assert!(!calm(SixRound, &plain(12), 1, 1) && !calm(SixRound, &plain(12), 1, 0));
    // Nobody runs after round 6, so that nothing is asked then.
    assert!(calm(SixRound, &plain(18), 7, 0));
    // Without senders in prepare it is not calm; without senders in bit rounds it is.
    let mut silent = plain(11);
    silent.words[1] = 0;
    assert!(!calm(SixRound, &silent, 1, 2));
    let mut silent = plain(11);
    silent.words[5 + 1] = 0;
    assert!(calm(SixRound, &silent, 1, 2));
    // A false mark in any round up to accept, in which both run.
    for round in 1..=6 {
        let mut marked = plain(11);
        marked.words[5 * (round - 1) + 2] = 0b10;
        assert!(!calm(SixRound, &marked, 1, 2), "{round}");
    }
    // A bit missed: both send in round 4. With b of 2 that is one round of few senders.
    let mut lost = plain(12);
    lost.words[5 * 3 + 3] = 0b10;
    assert!(!calm(SixRound, &lost, 1, 2));
}

#[test]
fn all_finish_by_s_plus_10() {
    let mut rng = Rng::new(91);
    let (mut late, mut running_at_s, mut lossy) = (0, 0, 0);
    let mut starts = BTreeSet::new();
    for k in 0..10_000 {
        let limits = match k % 200 {
            0 => Limits { trucks: 32, rounds: 60 },
            1..=50 => SMALL,
            _ => TINY_SIX,
        };
        let asked = if k % 2 == 0 { gen::ZERO } else { gen::NONE };
        let made = gen::calm(SixRound, &mut rng, limits, asked);
        assert!(calm(SixRound, &made.plain, made.s, made.b));
        let bytes = gen::bytes_of(&made.plain);
        let (_, fleet) = run(SixRound, &bytes);
        assert!(finished_by(&fleet, made.s + 10), "{bytes:02x?} {} {}", made.s, made.b);
        if k % 2 == 0 {
            assert!(agreed(&fleet) && valid(&fleet, &made.plain.openings));
        }
        // Some need the last of the eleven rounds.
        late += !finished_by(&fleet, made.s + 9) as usize;
        let first = made.s as usize - 1;
        let window = &radios(SixRound, &made.plain)[first..=first + 10];
        running_at_s += !window[0].running_trucks().is_empty() as usize;
        lossy +=
            window.iter().any(|radio| radio.running_trucks().iter().any(|i| radio.missed(*i) > 0))
                as usize;
        starts.insert(made.s % 6);
    }
    assert!(late > 100 && running_at_s > 3_000 && lossy > 100, "{late} {running_at_s} {lossy}");
    assert_eq!(starts.len(), 6);
}
