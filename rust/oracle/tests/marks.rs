//! The four classes, grading, and calm.

use oracle::gen::{self, Rng, FULL, SMALL, TINY};
use oracle::marks::{classes_of, first_not_mixed, majority_complete, mixed, radios};
use oracle::Cycle::TwoRound;
use oracle::*;

fn plain(openings: &[u8], rounds: &[&[u32]]) -> Plain {
    let words = rounds.concat();
    Plain { n: openings.len(), rounds: rounds.len(), openings: openings.to_vec(), words }
}

fn grades(openings: &[u8], rounds: &[&[u32]]) -> [u16; 4] {
    let bytes = gen::bytes_of(&plain(openings, rounds));
    let simple = grade(TwoRound, &bytes).unwrap();
    assert_eq!(fast::grade(&bytes), Ok(simple));
    simple
}

const SILENT: [u32; 5] = [0; 5];

#[test]
fn a_silent_round_asks_for_no_mark_and_a_mark_there_is_false() {
    let lossy = [0, 0, 0, 0b10, 0b01];
    assert_eq!(grades(&[3, 5], &[&lossy, &lossy]), [0, 0, 0, 0]);
    let marked = [0, 0, 0b10, 0b10, 0b01];
    assert_eq!(grades(&[3, 5], &[&lossy, &marked]), [0, 0, 0, 2]);
}

#[test]
fn classes_are_judged_apart() {
    // Truck 1 sends; truck 0 hears nothing without a mark, truck 1 has a false one.
    let first = [0, 0b10, 0b10, 0b10, 0];
    assert_eq!(grades(&[3, 5], &[&first]), [1, 1, 1, 1]);
    // Truck 0 with a mark, truck 1 without: nothing is broken.
    let fair = [0, 0b10, 0b01, 0b10, 0];
    assert_eq!(grades(&[3, 5], &[&fair]), [0, 0, 0, 0]);
    // Each keeps its own first round: complete breaks in 1, the others in 3.
    let three_of_four = [0, 0b1111, 0, 0b1000, 0, 0, 0];
    let silent = [0; 7];
    let one_sends = [0, 0b0010, 0b0010, 0b0010, 0, 0, 0];
    // Four different values: all veto in round 2, so all run in round 3.
    assert_eq!(grades(&[1, 2, 3, 4], &[&three_of_four, &silent, &one_sends]), [1, 3, 3, 3]);
}

#[test]
fn messages_are_counted_and_not_values() {
    // Truck 0 hears two of four messages, of one value both times.
    let words = [0, 0b1111, 0, 0b1100, 0, 0, 0];
    assert_eq!(grades(&[6, 6, 6, 6], &[&words]), [1, 1, 0, 0]);
    // Three of four is a majority.
    let words = [0, 0b1111, 0, 0b1000, 0, 0, 0];
    assert_eq!(grades(&[6, 6, 6, 6], &[&words]), [1, 0, 0, 0]);
    // Two of five is none, three of five is one.
    let words = [0, 0b11111, 0, 0b11100, 0, 0, 0, 0];
    assert_eq!(grades(&[6; 5], &[&words]), [1, 1, 0, 0]);
    let words = [0, 0b11111, 0, 0b11000, 0, 0, 0, 0];
    assert_eq!(grades(&[6; 5], &[&words]), [1, 0, 0, 0]);
}

#[test]
fn only_trucks_running_after_the_stops_are_judged() {
    // Truck 0 stops in the round: no message of its own, and no judgement.
    let stops = [0b01, 0b11, 0b01, 0b10, 0];
    assert_eq!(grades(&[3, 5], &[&stops]), [0, 0, 0, 0]);
    let stopped = [0, 0b11, 0b01, 0b10, 0];
    assert_eq!(grades(&[3, 5], &[&stops, &SILENT, &stopped]), [0, 0, 0, 0]);
    // Both decide in round 2, so marks in round 3 are of nobody.
    let both = [0, 0b11, 0, 0, 0];
    let marks = [0, 0b11, 0b11, 0b10, 0b01];
    assert_eq!(grades(&[4, 4], &[&both, &SILENT, &marks]), [0, 0, 0, 0]);
    // Without the decision in between they would count.
    assert_eq!(grades(&[4, 4], &[&both, &SILENT]), [0, 0, 0, 0]);
}

#[test]
fn vetoes_are_messages_too() {
    // Two values: both veto in round 2, and truck 0 misses truck 1's veto.
    let both = [0, 0b11, 0, 0, 0];
    let lossy = [0, 0, 0, 0b10, 0];
    assert_eq!(grades(&[3, 5], &[&both, &lossy]), [2, 2, 0, 0]);
    // One veto only, missed: all three of the completeness classes break.
    let marked = [0, 0b10, 0b01, 0b10, 0];
    let lost = [0, 0, 0, 0, 0b01];
    assert_eq!(grades(&[3, 5], &[&marked, &lost]), [2, 2, 2, 0]);
}

#[test]
fn first_rounds_of_random_recordings() {
    let mut rng = Rng::new(21);
    let mut broken = [0; 4];
    for k in 0..3_000 {
        let limits = if k % 60 == 0 { FULL } else { SMALL };
        let bytes = gen::recording(TwoRound, &mut rng, limits);
        let [complete, majority, zero, accurate] = grade(TwoRound, &bytes).unwrap();
        let kept = classes_of(TwoRound, &read(&bytes).unwrap());
        for (index, class) in kept.iter().enumerate() {
            let round = index as u16 + 1;
            // Each grade is the first round that breaks, and none before it does.
            for (grade, keeps) in [
                (complete, class.complete),
                (majority, class.majority),
                (zero, class.zero),
                (accurate, class.accurate),
            ] {
                assert!(keeps || (grade != 0 && grade <= round));
                assert!(grade != round || !keeps);
            }
            // Zero broken breaks majority, majority broken breaks complete.
            assert!(class.zero || !class.majority);
            assert!(class.majority || !class.complete);
        }
        for (count, grade) in broken.iter_mut().zip([complete, majority, zero, accurate]) {
            *count += (grade > 1) as usize;
        }
    }
    assert!(broken.iter().all(|count| *count > 100), "{broken:?}");
}

#[test]
fn made_majority_complete() {
    let mut rng = Rng::new(22);
    let mut false_marks = 0;
    for k in 0..2_000 {
        let limits = if k % 100 == 0 { FULL } else { SMALL };
        let plain = gen::with_marks(TwoRound, &mut rng, limits, gen::MAJORITY);
        assert!(majority_complete(TwoRound, &plain));
        let [_, majority, zero, accurate] = grade(TwoRound, &gen::bytes_of(&plain)).unwrap();
        assert_eq!((majority, zero), (0, 0));
        false_marks += (accurate > 0) as usize;
    }
    assert!(false_marks > 200);
}

#[test]
fn made_mixed() {
    let mut rng = Rng::new(23);
    let (mut weaker, mut false_marks) = (0, 0);
    for k in 0..2_000 {
        let limits = if k % 100 == 0 { FULL } else { SMALL };
        let plain = gen::with_marks(TwoRound, &mut rng, limits, gen::MIXED);
        assert!(mixed(&plain));
        let kept = classes_of(TwoRound, &plain);
        assert!(kept.iter().all(|classes| classes.zero));
        assert!(kept.iter().step_by(2).all(|classes| classes.majority));
        weaker += !majority_complete(TwoRound, &plain) as usize;
        false_marks += kept.iter().any(|classes| !classes.accurate) as usize;
    }
    assert!(weaker > 200 && false_marks > 200, "{weaker} {false_marks}");
}

/// Recordings on which the marks that agreement asks for are met and not met.
/// How they run is worked out by hand from the rules.
#[test]
fn mixed_marks_met_and_broken() {
    let met = |bytes: &[u8]| {
        let plain = read(bytes).unwrap();
        let (_, fleet) = run(TwoRound, bytes);
        let end: Vec<_> = fleet.trucks_below_n().iter().map(|t| (t.state, t.estimate)).collect();
        (first_not_mixed(&plain), grade(TwoRound, bytes).unwrap(), end)
    };
    let decided = |round, crusher| (State::Decided(round), crusher);
    // Two trucks hear each other in rounds 1 and 3, truck 0 with a false mark in round 1. In round 2 both veto and hear
    // half: each its own veto. Both decide the lower crusher.
    let half_heard = [0x08, 0x04, 0x35, 0x38, 0x00, 0x63, 0x00, 0x00];
    assert_eq!(met(&half_heard), (None, [2, 2, 0, 1], vec![decided(4, 3), decided(4, 3)]));
    // C2: half of the messages in an odd round.
    let c2 = [0x08, 0x02, 0x35, 0x31, 0x80, 0x00];
    assert_eq!(met(&c2), (Some(1), [1, 1, 0, 0], vec![decided(2, 3), decided(2, 5)]));
    // Trucks 0 and 1 open with 5 and truck 2 with 3. In round 1 they miss the 3, and hear two of three; in round 2 they miss
    // the veto of truck 2, and hear none of one. They decide 5, and truck 2, alone by then, decides 3.
    let veto_missed =
        [0x0C, 0x04, 0x55, 0x31, 0xC1, 0x20, 0x00, 0x48, 0x04, 0x00, 0x00, 0x00, 0x00];
    let ends = vec![decided(2, 5), decided(2, 5), decided(4, 3)];
    assert_eq!(met(&veto_missed), (Some(2), [1, 2, 2, 0], ends));
    // With a mark in round 2 the two do not decide, and nothing is broken.
    let mut marked = read(&veto_missed).unwrap();
    marked.words[6 + 2] = 0b011;
    let bytes = gen::bytes_of(&marked);
    let (broken, grades, _) = met(&bytes);
    assert_eq!((broken, grades), (None, [1, 0, 0, 0]));
    assert!(lists::decisions(&run(TwoRound, &bytes).1).iter().all(|crusher| *crusher == 3));
}

/// Two trucks, both active with nothing lost, six rounds: 3 and 5 agree in
/// round 4.
fn quiet() -> Plain {
    let both: &[u32] = &[0, 0b11, 0, 0, 0];
    plain(&[3, 5], &[both, &SILENT, both, &SILENT, both, &SILENT])
}

#[test]
fn calm_wants_five_rounds() {
    let quiet = quiet();
    assert!(calm(TwoRound, &quiet, 1, 2));
    assert!(calm(TwoRound, &quiet, 2, 2));
    assert!(!calm(TwoRound, &quiet, 3, 2));
    assert!(!calm(TwoRound, &quiet, 0, 2));
    assert!(!calm(TwoRound, &quiet, u64::MAX, 2));
    assert!(calm(TwoRound, &quiet, 1, u64::MAX));
    // Two senders are more than b.
    assert!(!calm(TwoRound, &quiet, 1, 1));
    assert!(!calm(TwoRound, &quiet, 1, 0));
}

#[test]
fn calm_wants_a_sender_where_a_truck_runs() {
    let mut silent = quiet();
    silent.words[1] = 0;
    assert!(!calm(TwoRound, &silent, 1, 2));
    assert!(calm(TwoRound, &silent, 2, 2));
    // Where all trucks stop no sender is asked for, whatever b is.
    silent.words[0] = 0b11;
    assert!(calm(TwoRound, &silent, 1, 2));
    assert!(calm(TwoRound, &silent, 1, 0));
    // One truck running is enough to ask for one.
    silent.words[0] = 0b01;
    assert!(!calm(TwoRound, &silent, 1, 2));
}

#[test]
fn calm_wants_no_false_mark_in_any_of_its_rounds() {
    // Both hear two values in round 1, one in round 3, and decide in round 4.
    let both: &[u32] = &[0, 0b11, 0, 0, 0];
    let one: &[u32] = &[0, 0b01, 0, 0, 0];
    let base = plain(&[3, 5], &[both, &SILENT, one, &SILENT, one, &SILENT]);
    assert!(calm(TwoRound, &base, 1, 2));
    for round in 1..=4 {
        let mut marked = base.clone();
        marked.words[(round - 1) * 5 + 2] = 0b10;
        assert!(!calm(TwoRound, &marked, 1, 2), "round {round}");
        assert_eq!(calm(TwoRound, &marked, 2, 2), round == 1);
    }
    // In round 5 nobody runs any more, so nothing is asked.
    let mut marked = base.clone();
    marked.words[4 * 5 + 2] = 0b10;
    assert!(calm(TwoRound, &marked, 1, 2));
    // A false mark in the last of the five rounds, of a truck that still runs.
    let last = plain(&[3, 5], &[&SILENT, &SILENT, both, &SILENT, one, &SILENT, one]);
    assert!(calm(TwoRound, &last, 2, 2));
    let mut marked = last.clone();
    marked.words[5 * 5 + 2] = 0b10;
    assert!(!calm(TwoRound, &marked, 2, 2));
}

#[test]
fn calm_wants_few_senders_heard_in_full() {
    // Both send and truck 1 misses truck 0; b of 2 covers it, b of 1 asks for
    // at most one sender.
    let lossy: &[u32] = &[0, 0b11, 0, 0, 0b01];
    let quiet = quiet();
    let mut lost = quiet.clone();
    lost.words[..5].copy_from_slice(lossy);
    assert!(!calm(TwoRound, &lost, 1, 2));
    assert!(!calm(TwoRound, &lost, 1, 1));
    assert!(calm(TwoRound, &lost, 2, 2));
    // A loss of a truck that doesn't send is none.
    let one: &[u32] = &[0, 0b10, 0, 0, 0b01];
    let mut none = quiet.clone();
    none.words[..5].copy_from_slice(one);
    assert!(calm(TwoRound, &none, 1, 2));
    // Two vetoes in round 2, one missed with a mark: within b of 2, above b of 1.
    let one: &[u32] = &[0, 0b01, 0, 0, 0];
    let veto: &[u32] = &[0, 0, 0b01, 0b10, 0];
    let both: &[u32] = &[0, 0b11, 0, 0, 0];
    let base = plain(&[3, 5], &[both, veto, one, &SILENT, one, &SILENT]);
    assert_eq!(radios(TwoRound, &base)[1].messages(), 2);
    assert!(!calm(TwoRound, &base, 2, 2));
    assert!(calm(TwoRound, &base, 2, 1));
    assert!(!calm(TwoRound, &base, 1, 1));
}

#[test]
fn made_calm() {
    let mut rng = Rng::new(23);
    let mut running_at_s = 0;
    let mut lossy_vetoes = 0;
    for k in 0..3_000 {
        let limits = if k % 2 == 0 { TINY } else { SMALL };
        let asked = if k % 4 < 2 { gen::MAJORITY } else { gen::NONE };
        let made = gen::calm(TwoRound, &mut rng, limits, asked);
        assert!(calm(TwoRound, &made.plain, made.s, made.b));
        assert!(k % 4 >= 2 || majority_complete(TwoRound, &made.plain));
        let first = made.s as usize - 1;
        let window = &radios(TwoRound, &made.plain)[first..first + 5];
        running_at_s += !window[0].running_trucks().is_empty() as usize;
        lossy_vetoes += window.iter().any(|radio| {
            !radio.is_proposal() && radio.running_trucks().iter().any(|i| radio.missed(*i) > 0)
        }) as usize;
    }
    assert!(running_at_s > 1_000 && lossy_vetoes > 50, "{running_at_s} {lossy_vetoes}");
}
