//! Rounds by trucks, fleets from bytes, and recorders, held against words written by hand and the independent reading.

use oracle::bytes::record_bytes;
use oracle::gen::{self, Rng, SMALL, TINY, TINY_SIX};
use oracle::{fleet::record_refused, lists, recording};
use rajvokshul::*;

/// A cycle as the independent reading names it.
fn read_as(cycle: Cycle) -> oracle::Cycle {
    match cycle {
        Cycle::TwoRound => oracle::Cycle::TwoRound,
        Cycle::SixRound => oracle::Cycle::SixRound,
        other => panic!("the independent reading has no rules of {other}"),
    }
}

/// A refusal by its number; 0 is none.
fn number<T>(answer: Result<T, Refusal>) -> u8 {
    answer.map_or_else(Refusal::number, |_| 0)
}

#[test]
fn each_bit_of_a_round_stands_where_it_should() {
    let empty = || Round::new(32).unwrap();
    for i in 0..32 {
        hold_bit(&empty().stopped(i).unwrap(), 0, i);
        hold_bit(&empty().active(i).unwrap(), 1, i);
        hold_bit(&empty().marked(i).unwrap(), 2, i);
        for j in 0..32 {
            match empty().lost(i, j) {
                Ok(round) => hold_bit(&round, 3 + i, j),
                // a truck cannot miss itself
                Err(refusal) => {
                    assert_eq!((refusal, i), (Refusal::OwnLoss { round: 1, truck: i as u8 }, j))
                }
            }
        }
    }
}

/// Holds a round of 32 trucks with one bit against its words, written by hand, and against what it says of each truck.
fn hold_bit(round: &Round, word: usize, truck: usize) {
    let mut words = [0; 35];
    words[word] = 1 << truck;
    assert_eq!(round.words(), words);
    for i in 0..40 {
        assert_eq!(round.is_stopped(i), (word, truck) == (0, i));
        assert_eq!(round.is_active(i), (word, truck) == (1, i));
        assert_eq!(round.is_marked(i), (word, truck) == (2, i));
        for j in 0..40 {
            assert_eq!(round.is_lost(i, j), (word, truck) == (3 + i, j));
        }
    }
    assert_eq!(Round::try_from(&words[..]).as_ref(), Ok(round));
}

#[test]
fn rounds_of_trucks_that_are_not_there_are_refused() {
    for (trucks, refused) in [(0, true), (1, false), (32, false), (33, true), (usize::MAX, true)] {
        assert_eq!(Round::new(trucks).err(), refused.then_some(Refusal::TruckCount));
    }
    let empty = || Round::new(2).unwrap();
    for i in [2, 31, 32, 64, usize::MAX] {
        assert_eq!(empty().stopped(i), Err(Refusal::PlainRound));
        assert_eq!(empty().active(i), Err(Refusal::PlainRound));
        assert_eq!(empty().marked(i), Err(Refusal::PlainRound));
        assert_eq!(empty().lost(i, 0), Err(Refusal::PlainRound));
        assert_eq!(empty().lost(0, i), Err(Refusal::PlainRound));
        // a truck that is not there comes before one that misses itself
        assert_eq!(empty().lost(i, i), Err(Refusal::PlainRound));
    }
}

#[test]
fn words_are_judged_as_a_step_judges_them() {
    for words in [0, 1, 2, 3, 36, 67] {
        assert_eq!(Round::try_from(&vec![0; words][..]), Err(Refusal::PlainRound), "{words}");
    }
    let mut rng = Rng::new(0x20BD);
    let mut refused = [0; 15];
    for _ in 0..20_000 {
        let n = rng.within(1, 32);
        let habits = gen::habits(&mut rng);
        let mut words = gen::round(oracle::Cycle::TwoRound, &mut rng, n, 1, &habits);
        for _ in 0..rng.below(3) {
            let word = rng.below(words.len());
            words[word] ^= 1 << rng.below(32);
        }
        let expected = if recording::round_misshapen(n, &words) {
            8
        } else if recording::round_has_own_bit(n, &words) {
            6
        } else {
            0
        };
        let round = Round::try_from(&words[..]);
        assert_eq!(number(round.as_ref().map_err(|r| *r)), expected);
        if expected == 6 {
            let truck = recording::words_own_bit(n, &words).unwrap().truck;
            assert_eq!(round, Err(Refusal::OwnLoss { round: 1, truck }));
        }
        if let Ok(round) = round {
            assert_eq!(round.words(), words);
            assert_eq!(by_names(&round), round);
        }
        refused[usize::from(expected)] += 1;
    }
    assert!([0, 6, 8].iter().all(|&k: &usize| refused[k] > 100), "{refused:?}");
}

/// The round again, built from what it says of each truck.
fn by_names(round: &Round) -> Round {
    let trucks = round.trucks();
    let mut built = Round::new(trucks).unwrap();
    for i in 0..trucks {
        if round.is_stopped(i) {
            built = built.stopped(i).unwrap();
        }
        if round.is_active(i) {
            built = built.active(i).unwrap();
        }
        if round.is_marked(i) {
            built = built.marked(i).unwrap();
        }
        for j in 0..trucks {
            if round.is_lost(i, j) {
                built = built.lost(i, j).unwrap();
            }
        }
    }
    built
}

#[test]
fn records_are_judged_by_refusal_7_and_no_other() {
    Cycle::ALL.iter().copied().for_each(records_are_judged_in);
}

fn records_are_judged_in(cycle: Cycle) {
    let mut rng = Rng::new(0x7EC0);
    let mut refused = [0; 2];
    let mut records = Vec::new();
    for made in oracle::Cycle::ALL {
        records.extend((0..1_000).map(|_| gen::record(made, &mut rng)));
        for _ in 0..50 {
            let broken = gen::broken_records(made, &mut rng);
            records.extend(broken.iter().map(|broken| broken.fleet));
        }
    }
    for record in records {
        let bytes = record_bytes(&record);
        let refuses = record_refused(read_as(cycle), &record);
        let expected = if refuses { Err(Refusal::Record) } else { Ok(()) };
        let fleet = Fleet::from_bytes_in(cycle, bytes);
        assert_eq!(fleet.as_ref().map(|_| ()).map_err(|r| *r), expected, "{record:?}");
        if cycle == Cycle::TwoRound {
            assert_eq!(Fleet::try_from(bytes), fleet);
            assert_eq!(Fleet::try_from(&bytes[..]), fleet);
        }
        if let Ok(fleet) = fleet {
            assert_eq!(fleet.as_bytes(), &bytes);
            assert_eq!(fleet.iter().count(), usize::from(record.n));
            let part = fleet.iter().map(|t| (t.sent.proposals, t.sent.vetoes, t.unwilling));
            let trucks = record.trucks_below_n().iter();
            assert!(part.eq(trucks.map(|t| (t.sent.proposals, t.sent.vetoes, t.unwilling))));
        }
        refused[usize::from(expected.is_err())] += 1;
    }
    assert!(refused[0] > 500 && refused[1] > 500, "{refused:?}");
    for _ in 0..1_000 {
        let damaged = gen::damaged_record(read_as(cycle), &mut rng);
        let expected = if damaged.refused { Err(Refusal::Record) } else { Ok(()) };
        let judged = Fleet::from_bytes_in(cycle, damaged.bytes);
        assert_eq!(judged.map(|_| ()), expected, "{}", damaged.how);
        let holds_a_truck = Fleet::from_bytes(damaged.bytes).truck(damaged.place).is_some();
        assert!(!holds_a_truck, "{}", damaged.how);
    }
}

#[test]
fn a_record_with_400_rounds_done_is_a_record() {
    let mut bytes = *Fleet::start(1, &[7]).unwrap().as_bytes();
    bytes[1..3].copy_from_slice(&400u16.to_le_bytes());
    assert_eq!(Fleet::try_from(bytes).unwrap().rounds_done(), 400);
    bytes[1..3].copy_from_slice(&401u16.to_le_bytes());
    assert_eq!(Fleet::try_from(bytes), Err(Refusal::Record));
    for length in [0, 322, 324] {
        assert_eq!(Fleet::try_from(&vec![0; length][..]), Err(Refusal::Record));
    }
}

#[test]
fn trucks_come_in_their_order() {
    let fleet = Fleet::start(3, &[4, 9, 2]).unwrap();
    let openings: Vec<u8> = (&fleet).into_iter().map(|truck| truck.opening).collect();
    assert_eq!(openings, [4, 9, 2]);
    let mut trucks = fleet.iter();
    assert_eq!(trucks.size_hint().1, Some(3));
    assert_eq!(trucks.next(), fleet.truck(0));
    assert_eq!(trucks.size_hint().1, Some(2));
    assert_eq!((trucks.next(), trucks.next()), (fleet.truck(1), fleet.truck(2)));
    assert_eq!((trucks.next(), trucks.next()), (None, None));
    // bytes that nobody has judged: 255 trucks, and the second place holds none
    let mut bytes = *fleet.as_bytes();
    bytes[0] = 255;
    assert_eq!(Fleet::from_bytes(bytes).iter().count(), 32);
    bytes[3 + 10 + 4] = 3;
    assert_eq!(Fleet::from_bytes(bytes).iter().count(), 1);
}

#[test]
fn grades_by_class() {
    let breaking = |breaks: &[(Class, u16)]| {
        let none = Grades::default();
        breaks.iter().fold(none, |grades, &(class, round)| grades.with_first_break(class, round))
    };
    let grades = breaking(&[(Class::Complete, 1), (Class::Majority, 20), (Class::Accurate, 400)]);
    let firsts = |grades: Grades| Class::ALL.iter().map(move |&class| grades.first_break(class));
    assert!(firsts(grades).eq([Some(1), Some(20), None, Some(400)]));
    assert_eq!((grades.complete, grades.majority, grades.zero, grades.accurate), (1, 20, 0, 400));
    let zero = breaking(&[(Class::Accurate, 2), (Class::Zero, 7), (Class::Accurate, 0)]);
    assert!(firsts(zero).eq([None, None, Some(7), None]));
}

#[test]
fn what_is_shown_names_trucks() {
    let round = Round::new(4).unwrap().active(0).unwrap().active(3).unwrap().lost(1, 0).unwrap();
    let round = round.lost(1, 3).unwrap().marked(1).unwrap().stopped(2).unwrap();
    assert_eq!(
        format!("{round:?}"),
        "Round { trucks: 4, stopped: {2}, active: {0, 3}, marked: {1}, lost: {1: {0, 3}} }"
    );
    assert_eq!(
        format!("{:?}", Fleet::start(1, &[7]).unwrap()),
        "Fleet { rounds_done: 0, trucks: [Truck { opening: 7, estimate: 7, mark: false, heard: Nothing, unwilling: false, state: Running, sent: Sent { proposals: 0, vetoes: 0 } }] }"
    );
    assert!(format!("{:?}", Fleet::from_bytes([2; RECORD_SIZE])).contains("trucks: [None, None]"));
    let plain = read(&[0x04, 0x01, 0x74]).unwrap();
    assert_eq!(
        format!("{plain:?}"),
        "Plain { openings: [7], rounds: [Round { trucks: 1, stopped: {}, active: {0}, marked: {}, lost: {} }] }"
    );
    for (rounds, words) in [(2, vec![0; 4]), (1, vec![0; 5]), (1, vec![0, 2, 0, 0])] {
        let mut plain = plain.clone();
        (plain.rounds, plain.words) = (rounds, words.clone());
        let shown = format!("{plain:?}");
        assert_eq!(shown, format!("Plain {{ openings: [7], rounds: {rounds}, words: {words:?} }}"));
    }
}

/// Plays a list with a recorder and with the independent reading. Answers how often each refusal was met.
fn hold_list(cycle: Cycle, list: &lists::List) -> [usize; 15] {
    let (numbers, last) = lists::play(list, |_| read_as(cycle)).unwrap();
    let mut recorder = Recorder::start_in(cycle, &list.openings).unwrap();
    assert_eq!(recorder.cycle(), cycle);
    let mut met = [0; 15];
    for (words, expected) in list.steps.iter().zip(numbers) {
        let before = recorder.clone();
        let answer = recorder.step(words).cloned();
        assert_eq!(number(answer.as_ref().map_err(|r| *r)), expected);
        match answer {
            Ok(fleet) => assert_eq!(&fleet, recorder.fleet()),
            Err(_) => assert_eq!(recorder, before),
        }
        met[usize::from(expected)] += 1;
    }
    assert_eq!(recorder.fleet().as_bytes(), &record_bytes(&last));
    let expected = lists::recording_of(list);
    let recorded = recorder.recording();
    assert_eq!(recorded, gen::bytes_of(&expected));
    assert_eq!(&Fleet::run_in(cycle, &recorded).unwrap(), recorder.fleet());
    assert_eq!(&read(&recorded).unwrap(), recorder.plain());
    assert_eq!(recorder.plain().rounds().len(), expected.rounds);
    met
}

#[test]
fn the_recording_of_a_recorder_runs_to_its_fleet() {
    let mut rng = Rng::new(0x4EC0);
    let mut met = [0; 15];
    let mut hold = |cycle, list: lists::List| {
        for (all, one) in met.iter_mut().zip(hold_list(cycle, &list)) {
            *all += one;
        }
    };
    for k in 0..3_000 {
        hold(
            Cycle::TwoRound,
            gen::list(oracle::Cycle::TwoRound, &mut rng, if k % 10 == 0 { SMALL } else { TINY }),
        );
    }
    for k in 0..1_000 {
        let limits = if k % 10 == 0 { SMALL } else { TINY_SIX };
        hold(Cycle::SixRound, gen::list(oracle::Cycle::SixRound, &mut rng, limits));
    }
    for (cycle, trucks) in Cycle::ALL.iter().flat_map(|&c| [1, 3, 32].map(|n| (c, n))) {
        hold(cycle, gen::long_list(read_as(cycle), &mut rng, trucks));
    }
    assert!([0, 6, 8, 14].iter().all(|&k: &usize| met[k] > 0), "{met:?}");
}

#[test]
fn a_recorder_starts_as_a_fleet_does() {
    assert_eq!(Recorder::start(&[]), Err(Refusal::TruckCount));
    assert_eq!(Recorder::start(&[0; 33]), Err(Refusal::TruckCount));
    assert_eq!(Recorder::start(&[3, 16]), Err(Refusal::Record));
    assert_eq!(Recorder::start(&[0; 32]).unwrap().fleet(), &Fleet::start(32, &[0; 32]).unwrap());
    for &cycle in Cycle::ALL {
        assert_eq!(Recorder::start_in(cycle, &[3, 16]), Err(Refusal::Record));
        let fleet = Recorder::start_in(cycle, &[3, 5]).unwrap().fleet().clone();
        assert_eq!(fleet, Fleet::start(2, &[3, 5]).unwrap());
    }
}
