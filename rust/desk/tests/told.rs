//! What is told of a recording: against cases worked by hand from the scope paper, against the independent reading on
//! recordings from fixed seeds in both cycles, and that tampered answers are met with a contradiction.

use desk::story::{tell, tell_in, Answers, Failure, Message, Story, Turn};
use desk::trucks::TruckSet;
use desk::verdict::{
    counts, decided_crushers, first_calm, first_weak, grades_of, hold_against_proofs, resting,
    Calm, Counts, Resting,
};
use oracle::gen::{self, Asked, Limits, Rng, FULL, SMALL, TINY_SIX};
use oracle::lists::sent_by_the_rules;
use oracle::marks::{classes_of, first_not_mixed, radios, round_is_calm};
use oracle::steps::follow;
use rajvokshul::{Class, Cycle, Fleet, Grades, Refusal, RoundKind, State, Truck};

const C1: [u8; 8] = [0x08, 0x04, 0x35, 0x30, 0x00, 0x03, 0x00, 0x00];
const C2: [u8; 6] = [0x08, 0x02, 0x35, 0x31, 0x80, 0x00];
const C3: [u8; 6] = [0x08, 0x02, 0x35, 0x3D, 0x80, 0x00];

/// C1 with a false mark for truck 0 in round 1, and each truck missing the other's veto in round 2.
const HALF_HEARD: [u8; 8] = [0x08, 0x04, 0x35, 0x38, 0x00, 0x63, 0x00, 0x00];

const BOTH: TruckSet = TruckSet(0b11);
const NOBODY: TruckSet = TruckSet(0);

/// A recording of plain rounds.
fn recorded(openings: &[u8], rounds: &[&[u32]]) -> Vec<u8> {
    let (n, r) = (openings.len() as u32, rounds.len() as u32);
    rajvokshul::write(n, r, openings, &rounds.concat()).unwrap()
}

/// A running truck that misses nothing and has no mark.
fn turn(before: u8, after: u8, sent: Option<Message>, heard: TruckSet) -> Turn {
    Turn {
        runs: true,
        stops: false,
        sent,
        heard,
        missed: NOBODY,
        marked: false,
        false_mark: false,
        before,
        after,
        becomes_unwilling: false,
        decides: false,
    }
}

fn value(crusher: u8) -> Option<Message> {
    Some(Message::Value(crusher))
}

fn grades(complete: u16, majority: u16, zero: u16, accurate: u16) -> Grades {
    let first = [complete, majority, zero, accurate];
    let breaks = Class::ALL.iter().zip(first);
    breaks.fold(Grades::default(), |grades, (&class, round)| grades.with_first_break(class, round))
}

#[test]
fn c1_two_values_then_one() {
    let story = tell(&C1).unwrap();
    assert_eq!(story.openings, [3, 5]);
    let turns: Vec<&[Turn]> = story.rounds.iter().map(|round| round.turns.as_slice()).collect();
    assert_eq!(turns[0], [turn(3, 3, value(3), BOTH), turn(5, 3, value(5), BOTH)]);
    assert_eq!(turns[1], [turn(3, 3, Some(Message::Veto), BOTH); 2]);
    assert_eq!(turns[2], [turn(3, 3, value(3), BOTH); 2]);
    assert_eq!(turns[3], [Turn { decides: true, ..turn(3, 3, None, NOBODY) }; 2]);
    assert_eq!(turns.len(), 4);
    assert_eq!(story.grades, grades(0, 0, 0, 0));
    assert_eq!(decided_crushers(&story), [(3, BOTH)]);
    let counted = Counts { proposals: 4, vetoes: 2, decided: 2, ..Counts::default() };
    assert_eq!(counts(&story), counted);
    let sent = |truck: &Truck| (truck.sent.proposals, truck.sent.vetoes);
    assert!(story.end.iter().all(|truck| sent(truck) == (2, 1)));
}

#[test]
fn c2_each_misses_the_other() {
    let story = tell(&C2).unwrap();
    let missing = |i: u32, crusher: u8| Turn {
        missed: TruckSet(0b11 & !(1 << i)),
        ..turn(crusher, crusher, value(crusher), TruckSet(1 << i))
    };
    assert_eq!(story.rounds[0].turns, [missing(0, 3), missing(1, 5)]);
    let decides = |crusher: u8| Turn { decides: true, ..turn(crusher, crusher, None, NOBODY) };
    assert_eq!(story.rounds[1].turns, [decides(3), decides(5)]);
    assert_eq!(story.grades, grades(1, 1, 0, 0));
    assert_eq!(decided_crushers(&story), [(3, TruckSet(0b01)), (5, TruckSet(0b10))]);
}

#[test]
fn c3_marks_hold_both_back() {
    let story = tell(&C3).unwrap();
    let marked = |i: u32, crusher: u8| Turn {
        missed: TruckSet(0b11 & !(1 << i)),
        marked: true,
        ..turn(crusher, crusher, value(crusher), TruckSet(1 << i))
    };
    assert_eq!(story.rounds[0].turns, [marked(0, 3), marked(1, 5)]);
    let vetoes = |crusher: u8| turn(crusher, crusher, Some(Message::Veto), BOTH);
    assert_eq!(story.rounds[1].turns, [vetoes(3), vetoes(5)]);
    assert_eq!(story.grades, grades(0, 0, 0, 0));
    assert!(decided_crushers(&story).is_empty());
}

#[test]
fn c4_one_truck_alone() {
    let story = tell(&[0x04, 0x02, 0x74, 0x00]).unwrap();
    assert_eq!(story.rounds[0].turns, [turn(7, 7, value(7), TruckSet(1))]);
    assert_eq!(story.rounds[1].turns, [Turn { decides: true, ..turn(7, 7, None, NOBODY) }]);
    // Never active: silent rounds decide nothing.
    let story = tell(&[0x04, 0x02, 0x70, 0x00]).unwrap();
    assert_eq!(story.rounds[0].turns, [turn(7, 7, None, NOBODY)]);
    assert_eq!(story.rounds[1].turns, [turn(7, 7, None, NOBODY)]);
}

#[test]
fn c13_two_of_three_is_a_majority() {
    let story = tell(&recorded(&[4, 6, 9], &[&[0, 0b111, 0, 0, 0, 0b001]])).unwrap();
    let all = TruckSet(0b111);
    let third = Turn { missed: TruckSet(0b001), ..turn(9, 6, value(9), TruckSet(0b110)) };
    assert_eq!(
        story.rounds[0].turns,
        [turn(4, 4, value(4), all), turn(6, 4, value(6), all), third]
    );
    assert_eq!(story.grades, grades(1, 0, 0, 0));
}

#[test]
fn a_stop_and_a_false_mark() {
    // Truck 0 stops in round 1; truck 1 sends and hears itself, has a false mark in round 2, and so runs on.
    let rounds: [&[u32]; 2] = [&[0b01, 0b11, 0b01, 0, 0], &[0, 0, 0b10, 0, 0]];
    let story = tell(&recorded(&[3, 5], &rounds)).unwrap();
    let away = Turn { runs: false, ..turn(3, 3, None, NOBODY) };
    let alone = turn(5, 5, value(5), TruckSet(0b10));
    assert_eq!(story.rounds[0].turns, [Turn { stops: true, ..away }, alone]);
    let held = Turn { marked: true, false_mark: true, ..turn(5, 5, None, NOBODY) };
    assert_eq!(story.rounds[1].turns, [away, held]);
    assert_eq!(story.end[0].state, State::Stopped(1));
    assert_eq!(story.end[1].state, State::Running);
    assert_eq!(story.grades, grades(0, 0, 0, 2));
}

#[test]
fn a_refused_recording_has_no_story() {
    assert_eq!(tell(&C1[..7]), Err(Failure::Refused(Refusal::RecordingLength)));
    assert_eq!(tell(&[]), Err(Failure::Refused(Refusal::ShortRecording)));
}

/// Mostly tiny recordings, some small ones, now and then one of any size.
fn mixed(k: usize) -> Limits {
    match k {
        k if k % 400 == 0 => FULL,
        k if k % 8 == 0 => SMALL,
        _ => TINY_SIX,
    }
}

/// Whether a kind of round of the independent reading is that of the safe crate.
fn same_kind(theirs: oracle::RoundKind, ours: RoundKind) -> bool {
    match theirs {
        oracle::RoundKind::Proposals => ours == RoundKind::Proposals,
        oracle::RoundKind::Vetoes => ours == RoundKind::Vetoes,
        oracle::RoundKind::Prepare => ours == RoundKind::Prepare,
        oracle::RoundKind::Bit(worth) => ours == RoundKind::Bit(worth),
        oracle::RoundKind::Accept => ours == RoundKind::Accept,
    }
}

/// Every turn of a story against the independent reading.
fn hold_turns(cycle: oracle::Cycle, plain: &oracle::Plain, story: &Story) {
    let (_, mut before) = oracle::start(plain.n as u64, &plain.openings);
    for (index, radio) in radios(cycle, plain).iter().enumerate() {
        let after = follow(cycle, &before, plain.round(index + 1));
        let round = &story.rounds[index];
        assert_eq!(usize::from(round.number), index + 1);
        assert!(same_kind(radio.kind, round.kind), "round {}", radio.round);
        for i in 0..plain.n {
            let (was, is) = (&before.trucks[i], &after.trucks[i]);
            let sent = radio.sends[i].then_some(match radio.kind {
                oracle::RoundKind::Proposals | oracle::RoundKind::Prepare => {
                    Message::Value(was.estimate)
                }
                oracle::RoundKind::Bit(_) => Message::Bit,
                oracle::RoundKind::Vetoes | oracle::RoundKind::Accept => Message::Veto,
            });
            let missed = |j: usize| radio.running[i] && radio.sends[j] && !radio.hears[i][j];
            let marked = radio.running[i] && radio.mark_bit[i];
            let expected = Turn {
                runs: radio.running[i],
                stops: was.is_running() && is.state == oracle::State::Stopped(radio.round),
                sent,
                heard: TruckSet::of(plain.n, |j| radio.hears[i][j]),
                missed: TruckSet::of(plain.n, missed),
                marked,
                false_mark: marked && radio.missed(i) == 0,
                before: was.estimate,
                after: is.estimate,
                becomes_unwilling: !was.unwilling && is.unwilling,
                decides: was.is_running() && is.state == oracle::State::Decided(radio.round),
            };
            assert_eq!(round.turns[i], expected, "round {}, truck {i}", radio.round);
        }
        before = after;
    }
}

/// The counts by the independent reading.
fn counts_of(cycle: oracle::Cycle, plain: &oracle::Plain) -> Counts {
    let mut counts = Counts::default();
    for radio in radios(cycle, plain) {
        for i in 0..plain.n {
            counts.proposals += usize::from(radio.sent(i).proposals);
            counts.vetoes += usize::from(radio.sent(i).vetoes);
        }
        for i in radio.running_trucks() {
            counts.missed += radio.missed(i);
            counts.marks += usize::from(radio.mark_bit[i]);
            counts.false_marks += usize::from(radio.mark_bit[i] && radio.missed(i) == 0);
        }
    }
    let (_, end) = oracle::run(cycle, &gen::bytes_of(plain));
    for truck in end.trucks_below_n() {
        match truck.state {
            oracle::State::Running => {}
            oracle::State::Stopped(_) => counts.stopped += 1,
            oracle::State::Decided(_) => counts.decided += 1,
        }
    }
    counts
}

/// The first calm stretch by trying every S and every b.
fn calm_by_trying(cycle: oracle::Cycle, plain: &oracle::Plain) -> Option<Calm> {
    let (radios, span) = (radios(cycle, plain), cycle.calm_span() as u16);
    for (from, calm) in (1..).zip(radios.windows(usize::from(span) + 1)) {
        for b in 0..=33 {
            if calm.iter().all(|radio| round_is_calm(radio, b)) {
                return Some(Calm { from, last: from + span, senders: b as usize });
            }
        }
    }
    None
}

/// The first round whose marks are less than agreement asks for in a cycle.
fn weak_by_classes(cycle: oracle::Cycle, plain: &oracle::Plain) -> Option<usize> {
    match cycle {
        oracle::Cycle::TwoRound => first_not_mixed(plain),
        oracle::Cycle::SixRound => {
            classes_of(cycle, plain).iter().position(|kept| !kept.zero).map(|index| index + 1)
        }
    }
}

/// The veto rounds of two with a truck running, and those of them with zero complete marks that are not majority complete.
fn resting_by_classes(cycle: oracle::Cycle, plain: &oracle::Plain) -> Resting {
    let mut found = Resting::default();
    for (radio, kept) in radios(cycle, plain).iter().zip(classes_of(cycle, plain)) {
        if radio.kind == oracle::RoundKind::Vetoes && !radio.running_trucks().is_empty() {
            found.rounds.push(radio.round);
            if kept.zero && !kept.majority {
                found.only_zero.push(radio.round);
            }
        }
    }
    found
}

/// How many recordings have each of these.
#[derive(Debug, Default)]
struct Met {
    calm: usize,
    broken: usize,
    weak: usize,
    only_zero: usize,
    unwilling: usize,
}

/// Recordings of a cycle, of which some have the marks that are asked for, against the independent reading.
fn tell_many(cycle: Cycle, theirs: oracle::Cycle, asked: Asked) -> Met {
    let mut rng = Rng::new(0xDE51);
    let mut met = Met::default();
    for k in 0..4_000 {
        let plain = match k % 4 {
            0 => gen::plain(theirs, &mut rng, mixed(k)),
            1 => gen::with_marks(theirs, &mut rng, mixed(k), asked),
            2 => gen::calm(theirs, &mut rng, mixed(k), gen::MAJORITY).plain,
            _ => gen::calm(theirs, &mut rng, mixed(k), gen::NONE).plain,
        };
        let story = tell_in(cycle, &gen::bytes_of(&plain)).unwrap();
        assert_eq!(story.openings, plain.openings);
        assert_eq!(story.rounds.len(), plain.rounds);
        hold_turns(theirs, &plain, &story);
        assert_eq!(counts(&story), counts_of(theirs, &plain));
        let expected = oracle::grade(theirs, &gen::bytes_of(&plain)).unwrap();
        let derived = grades_of(&story.rounds);
        let firsts = Class::ALL.iter().map(|&class| derived.first_break(class).unwrap_or(0));
        assert!(firsts.eq(expected));
        assert_eq!(first_calm(&story), calm_by_trying(theirs, &plain));
        met.calm += usize::from(first_calm(&story).is_some());
        met.broken += usize::from(story.grades.majority != 0);
        let found = first_weak(&story.rounds);
        assert_eq!(found.map(|weak| usize::from(weak.round)), weak_by_classes(theirs, &plain));
        met.weak += usize::from(found.is_some());
        let rests = resting(&story.rounds);
        assert_eq!(rests, resting_by_classes(theirs, &plain));
        met.only_zero += usize::from(found.is_none() && !rests.only_zero.is_empty());
        let mut turns = story.rounds.iter().flat_map(|round| &round.turns);
        met.unwilling += usize::from(turns.any(|turn| turn.becomes_unwilling));
        hold_counts(cycle, &plain, &story);
    }
    met
}

/// In two rounds each truck's counts are those of the rules, in any other cycle they are 0.
fn hold_counts(cycle: Cycle, plain: &oracle::Plain, story: &Story) {
    let expected = match cycle {
        Cycle::TwoRound => sent_by_the_rules(plain),
        _ => vec![oracle::Sent::default(); plain.n],
    };
    let sent = story.end.iter().map(|truck| (truck.sent.proposals, truck.sent.vetoes));
    assert!(sent.eq(expected.iter().map(|sent| (sent.proposals, sent.vetoes))));
}

#[test]
fn told_as_the_independent_reading_tells_it() {
    let met = tell_many(Cycle::TwoRound, oracle::Cycle::TwoRound, gen::MIXED);
    // The seeds make many of each kind.
    assert!(met.calm > 500 && met.broken > 500 && met.weak > 500, "{met:?}");
    assert!(met.only_zero > 100 && met.unwilling == 0, "{met:?}");
}

#[test]
fn six_rounds_told_as_the_independent_reading_tells_them() {
    let met = tell_many(Cycle::SixRound, oracle::Cycle::SixRound, gen::ZERO);
    assert!(met.calm > 500 && met.broken > 500 && met.weak > 300, "{met:?}");
    assert!(met.unwilling > 500 && met.only_zero == 0, "{met:?}");
}

fn contradicted(answers: &Answers) -> bool {
    matches!(answers.story(), Err(Failure::Contradiction(_)))
}

/// Two trucks of crushers 4 and 0: in round 3 of six truck 1 hears truck 0 and becomes unwilling, and in round 6 it vetoes.
fn unwilling() -> Vec<u8> {
    recorded(&[4, 0], &[&[0; 5][..]; 6])
}

#[test]
fn tampered_records_are_contradicted() {
    let unwilling = unwilling();
    for (cycle, recording) in [
        (Cycle::TwoRound, &C1[..]),
        (Cycle::TwoRound, &C2),
        (Cycle::TwoRound, &C3),
        (Cycle::SixRound, &C1),
        (Cycle::SixRound, &unwilling),
    ] {
        let answers = Answers::ask(cycle, recording).unwrap();
        assert!(answers.story().is_ok());
        for k in 0..answers.records.len() {
            // n, the rounds done and the places of both trucks; places above n say nothing.
            for at in 0..3 + 10 * 2 {
                let mut bytes = *answers.records[k].as_bytes();
                bytes[at] ^= 1;
                let mut tampered = answers.clone();
                tampered.records[k] = Fleet::from_bytes(bytes);
                assert!(contradicted(&tampered), "record {k}, byte {at}");
            }
        }
        let mut tampered = answers.clone();
        tampered.ran = answers.records[0].clone();
        assert!(contradicted(&tampered));
        let mut tampered = answers.clone();
        tampered.records.pop();
        assert!(contradicted(&tampered));
    }
}

#[test]
fn tampered_grades_openings_and_words_are_contradicted() {
    let answers = Answers::ask(Cycle::TwoRound, &C2).unwrap();
    for &class in Class::ALL {
        let mut tampered = answers.clone();
        let first = tampered.grades.first_break(class).unwrap_or(0);
        tampered.grades = tampered.grades.with_first_break(class, first ^ 1);
        assert!(contradicted(&tampered), "{class:?}");
    }
    let mut tampered = answers.clone();
    tampered.plain.openings[0] = 4;
    assert!(contradicted(&tampered));
    let mut tampered = answers.clone();
    tampered.plain.rounds = 3;
    assert!(contradicted(&tampered));
    let mut tampered = answers.clone();
    tampered.cycle = Cycle::SixRound;
    assert!(contradicted(&tampered));
    // In round 1 every word matters: stop, active and mark bits, and what each truck missed.
    for word in 0..5 {
        let mut tampered = answers.clone();
        tampered.plain.words[word] ^= if word == 3 { 0b10 } else { 0b01 };
        assert!(contradicted(&tampered), "word {word}");
    }
}

/// A story that no recording has is held against what is proved of all of them.
#[test]
fn what_is_proved_of_every_run_is_asked_of_a_story() {
    let contradicted =
        |story: &Story| matches!(hold_against_proofs(story), Err(Failure::Contradiction(_)));
    // Decided trucks that differ, though no round breaks anything.
    let mut differ = tell(&C2).unwrap();
    differ.rounds.clear();
    differ.grades = grades(0, 0, 0, 0);
    assert!(contradicted(&differ));
    differ.end[1].estimate = differ.end[0].estimate;
    assert!(!contradicted(&differ));
    // A crusher with which no truck opened.
    differ.end.iter_mut().for_each(|truck| truck.estimate = 9);
    assert!(contradicted(&differ));
    // In a veto round with half of the vetoes heard marks still guarantee agreement.
    let mut half_heard = tell(&HALF_HEARD).unwrap();
    assert_eq!((half_heard.grades.majority, first_weak(&half_heard.rounds)), (2, None));
    assert!(!contradicted(&half_heard));
    half_heard.end[1].estimate = 5;
    assert!(contradicted(&half_heard));
    // A truck that runs on after calm rounds, and one that decided later than they end.
    let mut alone: [&[u32]; 12] = [&[0; 4]; 12];
    alone[0] = &[0, 1, 0, 0];
    for (cycle, last, decided) in [(Cycle::TwoRound, 5, 2), (Cycle::SixRound, 11, 6)] {
        let mut calm = tell_in(cycle, &recorded(&[7], &alone)).unwrap();
        assert_eq!(first_calm(&calm), Some(Calm { from: 1, last, senders: 1 }));
        assert_eq!(calm.end[0].state, State::Decided(decided));
        assert!(!contradicted(&calm));
        calm.end[0].state = State::Running;
        assert!(contradicted(&calm));
        calm.end[0].state = State::Decided(12);
        assert!(contradicted(&calm));
    }
    // In six rounds marks that are zero complete guarantee agreement, and no fewer.
    let mut six = tell_in(Cycle::SixRound, &unwilling()).unwrap();
    assert_eq!(first_weak(&six.rounds), None);
    six.end.iter_mut().for_each(|truck| truck.state = State::Decided(6));
    assert!(contradicted(&six));
    // Truck 1 misses the only message of round 3 without a mark.
    let missing: &[u32] = &[0, 0, 0, 0, 0b01];
    let mut rounds: [&[u32]; 6] = [&[0; 5]; 6];
    rounds[2] = missing;
    let six = tell_in(Cycle::SixRound, &recorded(&[4, 0], &rounds)).unwrap();
    assert_eq!(first_weak(&six.rounds).map(|weak| weak.round), Some(3));
    assert_eq!(decided_crushers(&six), [(0, TruckSet(0b10)), (4, TruckSet(0b01))]);
}
