//! Demand 3 tried out: whole lists of steps, and runs.

use oracle::gen::{self, Limits, Rng, FULL, SMALL, TINY};
use oracle::lists::{agreed, finished_by, play, recording_of, taken, valid};
use oracle::marks::{classes_of, majority_complete, mixed};
use oracle::Cycle::TwoRound;
use oracle::*;

/// Plays a list and compares it with the run of its recording. Answers the
/// record returned last.
fn played_as_run(list: &List) -> Fleet {
    let (numbers, fleet) = play(list, |_| TwoRound).unwrap();
    let plain = recording_of(list);
    let bytes = write(list.n, plain.rounds as u64, &plain.openings, &plain.words).unwrap();
    assert_eq!(check(&bytes), Ok(Header { n: plain.n, rounds: plain.rounds }));
    let (number, run_fleet) = run(TwoRound, &bytes);
    assert_eq!(number, 0);
    assert_eq!(fleet.done as usize, plain.rounds);
    assert!(fleet.same_below_n(&run_fleet));
    // After a start the other places are the same too.
    assert_eq!(fleet, run_fleet);
    assert_eq!(fast::run(&bytes), (0, run_fleet));
    // A step answers 0 exactly where its round is taken, else 14, 8 or 6.
    for (number, is_taken) in numbers.iter().zip(taken(list)) {
        assert_eq!(*number == 0, is_taken);
        assert!([0, 14, 8, 6].contains(number));
    }
    // The fast step goes along.
    let (_, mut along) = start(list.n, &list.openings);
    for (words, number) in list.steps.iter().zip(&numbers) {
        let (fast_number, next) = fast::step(&along, words);
        assert_eq!(fast_number, *number);
        along = next;
    }
    assert_eq!(along, fleet);
    fleet
}

#[test]
fn a_list_is_its_recording() {
    let mut rng = Rng::new(31);
    for k in 0..2_000 {
        let limits = if k % 100 == 0 { FULL } else { SMALL };
        let list = gen::list(TwoRound, &mut rng, limits);
        let fleet = played_as_run(&list);
        // Every estimate of every truck is an opening, whatever the marks.
        assert!(fleet.trucks_below_n().iter().all(|t| list.openings.contains(&t.estimate)));
        assert!(fleet.trucks_below_n().iter().map(|t| t.opening).eq(list.openings.iter().copied()));
    }
}

#[test]
fn more_than_400_steps() {
    let mut rng = Rng::new(32);
    for _ in 0..30 {
        let list = gen::long_list(TwoRound, &mut rng, 12);
        assert!(list.steps.len() > 400);
        let fleet = played_as_run(&list);
        assert_eq!(fleet.done, 400);
        let (numbers, _) = play(&list, |_| TwoRound).unwrap();
        let full = numbers.iter().position(|number| *number == 14).unwrap();
        assert!(numbers[full..].iter().all(|number| *number == 14));
        assert_eq!(numbers.iter().filter(|number| **number == 0).count(), 400);
    }
}

#[test]
fn no_steps_at_all() {
    let list = List { n: 3, openings: vec![1, 2, 3], steps: vec![] };
    assert_eq!(played_as_run(&list), start(3, &[1, 2, 3]).1);
}

#[test]
fn agreement_and_validity_under_majority_complete_marks() {
    let mut rng = Rng::new(33);
    let mut several_decide = 0;
    let mut in_different_rounds = 0;
    let mut with_losses = 0;
    for k in 0..40_000 {
        let limits = match k % 400 {
            0 => FULL,
            1..=60 => SMALL,
            _ => TINY,
        };
        let plain = gen::with_marks(TwoRound, &mut rng, limits, gen::MAJORITY);
        let bytes = gen::bytes_of(&plain);
        let (_, fleet) = run(TwoRound, &bytes);
        assert!(agreed(&fleet), "{bytes:02x?}");
        assert!(valid(&fleet, &plain.openings), "{bytes:02x?}");
        let rounds: Vec<_> = fleet
            .trucks_below_n()
            .iter()
            .filter_map(|t| if let State::Decided(r) = t.state { Some(r) } else { None })
            .collect();
        several_decide += (rounds.len() > 1) as usize;
        in_different_rounds += rounds.iter().any(|r| *r != rounds[0]) as usize;
        with_losses += (rounds.len() > 1 && grade(TwoRound, &bytes).unwrap()[0] > 0) as usize;
    }
    assert!(several_decide > 4_000, "{several_decide}");
    assert!(in_different_rounds > 1_000, "{in_different_rounds}");
    assert!(with_losses > 1_000, "{with_losses}");
}

#[test]
fn agreement_and_validity_under_mixed_marks() {
    let mut rng = Rng::new(37);
    let mut several_decide = 0;
    let mut not_majority = 0;
    let mut with_false_marks = 0;
    let mut with_refused_steps = 0;
    for k in 0..40_000 {
        let limits = match k % 400 {
            0 => FULL,
            1..=60 => SMALL,
            _ => TINY,
        };
        let plain = gen::with_marks(TwoRound, &mut rng, limits, gen::MIXED);
        let fleet = if k % 8 == 0 {
            let bad = rng.pick(&[0, 40, 120]);
            let list = gen::list_around(&mut rng, &plain, bad);
            with_refused_steps += (list.steps.len() > plain.rounds) as usize;
            played_as_run(&list)
        } else {
            run(TwoRound, &gen::bytes_of(&plain)).1
        };
        assert!(agreed(&fleet) && valid(&fleet, &plain.openings), "{plain:?}");
        if lists::decisions(&fleet).len() > 1 {
            several_decide += 1;
            not_majority += !majority_complete(TwoRound, &plain) as usize;
            with_false_marks += classes_of(TwoRound, &plain).iter().any(|c| !c.accurate) as usize;
        }
    }
    assert!(several_decide > 4_000, "{several_decide}");
    assert!(not_majority > 1_000, "{not_majority}");
    assert!(with_false_marks > 1_000, "{with_false_marks}");
    assert!(with_refused_steps > 1_000, "{with_refused_steps}");
}

/// With zero complete marks throughout, and with majority complete ones in odd
/// rounds alone, trucks come to differ.
#[test]
fn each_half_of_mixed_marks_is_needed() {
    let mut rng = Rng::new(38);
    for asked in [gen::ZERO, gen::ODD_MAJORITY] {
        let mut disagreements = 0;
        for _ in 0..20_000 {
            let plain = gen::with_marks(TwoRound, &mut rng, TINY, asked);
            let (_, fleet) = run(TwoRound, &gen::bytes_of(&plain));
            if !agreed(&fleet) {
                assert!(!mixed(&plain));
                disagreements += 1;
            }
        }
        assert!(disagreements > 50, "{disagreements}");
    }
}

#[test]
fn without_majority_complete_marks_there_is_disagreement() {
    let mut rng = Rng::new(34);
    let mut disagreements = 0;
    for _ in 0..10_000 {
        let plain = gen::plain(TwoRound, &mut rng, TINY);
        let (_, fleet) = run(TwoRound, &gen::bytes_of(&plain));
        if !agreed(&fleet) {
            assert!(!majority_complete(TwoRound, &plain));
            disagreements += 1;
        }
    }
    assert!(disagreements > 100, "{disagreements}");
}

#[test]
fn all_finish_by_s_plus_4() {
    let mut rng = Rng::new(35);
    let mut late = 0;
    for k in 0..20_000 {
        let limits = match k % 200 {
            0 => Limits { trucks: 32, rounds: 60 },
            1..=50 => SMALL,
            _ => TINY,
        };
        let majority = k % 2 == 0;
        let asked = if majority { gen::MAJORITY } else { gen::NONE };
        let made = gen::calm(TwoRound, &mut rng, limits, asked);
        let bytes = gen::bytes_of(&made.plain);
        let (_, fleet) = run(TwoRound, &bytes);
        assert!(finished_by(&fleet, made.s + 4), "{bytes:02x?} {} {}", made.s, made.b);
        if majority {
            assert!(agreed(&fleet) && valid(&fleet, &made.plain.openings));
        }
        // Some need the last of the five rounds.
        late += !finished_by(&fleet, made.s + 3) as usize;
    }
    assert!(late > 100, "{late}");
}

#[test]
fn lists_of_calm_and_majority_complete_recordings() {
    let mut rng = Rng::new(36);
    for k in 0..2_000 {
        let made = gen::calm(TwoRound, &mut rng, SMALL, gen::MAJORITY);
        let bad = rng.pick(&[0, 40, 120]);
        let list = gen::list_around(&mut rng, &made.plain, bad);
        assert_eq!(recording_of(&list), made.plain);
        let fleet = played_as_run(&list);
        assert!(finished_by(&fleet, made.s + 4));
        assert!(agreed(&fleet) && valid(&fleet, &list.openings), "{k}");
    }
}

/// Every recording of two trucks with openings 3 and 5 in one pair of rounds,
/// then the claims where they apply.
#[test]
fn every_pair_of_rounds_of_two_trucks() {
    let mut complete = 0;
    let mut weaker = 0;
    for bits in 0u32..1 << 16 {
        let pick = |place: u32, width: u32| bits >> place & ((1 << width) - 1);
        let round = |at: u32| {
            let lost = pick(at + 6, 2);
            [pick(at, 2), pick(at + 2, 2), pick(at + 4, 2), (lost & 1) << 1, lost >> 1]
        };
        let words = [round(0), round(8)].concat();
        let bytes = write(2, 2, &[3, 5], &words).unwrap();
        let (_, fleet) = run(TwoRound, &bytes);
        assert_eq!(fast::run(&bytes), (0, fleet));
        assert!(valid(&fleet, &[3, 5]));
        let grades = grade(TwoRound, &bytes).unwrap();
        assert_eq!(fast::grade(&bytes), Ok(grades));
        if mixed(&read(&bytes).unwrap()) {
            assert!(agreed(&fleet));
            complete += (grades[1] == 0) as usize;
            weaker += (grades[1] != 0) as usize;
        } else {
            assert!(grades[1] != 0);
        }
    }
    assert!(complete > 10_000 && weaker > 100, "{complete} {weaker}");
}
