//! What is asked of the six-round cycle alone: recordings that end in each of its rounds, buffers that are too short, records that change the cycle, willingness,
//! and every state that two trucks can reach. compare.rs has what both cycles are asked.

use std::collections::BTreeMap;

use checks::same::{self, FILL};
use checks::steps::{a_round, EXPORTED};
use checks::times;
use oracle::bytes::{record_bytes, RECORD};
use oracle::gen::{self, Rng, TINY_SIX};
use oracle::{lists, marks, Cycle, Header, Plain, State, Truck};
use Cycle::{SixRound, TwoRound};

/// Every number of rounds, so that a recording ends in each of the six.
#[test]
fn every_number_of_rounds() {
    let mut rng = Rng::new(103);
    for rounds in 0..=400 {
        for n in [1, rng.within(2, 9)] {
            let plain = gen::plain_of_size(SixRound, &mut rng, Header { n, rounds });
            let bytes = gen::bytes_of(&plain);
            assert_eq!(same::run(SixRound, &bytes), 0);
            same::grade(SixRound, &bytes);
        }
    }
}

/// A buffer that is too short is refused with 9 after 1 to 6, and left alone.
#[test]
fn short_buffers() {
    let mut rng = Rng::new(106);
    for k in 0..times(2_000) {
        let bytes = match k % 2 {
            0 => gen::bytes_of(&gen::plain(SixRound, &mut rng, TINY_SIX)),
            _ => gen::damaged(&mut rng, TINY_SIX, 1 + (k / 2 % 6) as u8).bytes,
        };
        let number = u32::from(oracle::run(SixRound, &bytes).0);
        let expected = if number == 0 { 9 } else { number };
        let mut record = vec![FILL; rng.below(RECORD)];
        assert_eq!(checks::run(SixRound, &bytes, &mut record), expected);
        assert!(record.iter().all(|byte| *byte == FILL));
        let mut grades = vec![999; rng.below(4)];
        assert_eq!(checks::grade(SixRound, &bytes, &mut grades), expected);
        assert!(grades.iter().all(|grade| *grade == 999));
    }
}

#[test]
fn lists_that_change_the_cycle() {
    EXPORTED.lists_that_change_the_cycle(108, 7_000);
}

/// Every number of rounds done with a truck in each state, willing and not, whose memory and counts are anything.
#[test]
fn willingness_at_its_limits() {
    let mut rng = Rng::new(110);
    for done in 0..=401 {
        let (last, any) = (done / 6 * 6, rng.within(0, 402) as u16);
        let ends = [0, 1, last, last + 1, last + 6, done, done + 1, any];
        let ended = ends.into_iter().flat_map(|k| [State::Stopped(k), State::Decided(k)]);
        for state in ended.chain([State::Running]) {
            for unwilling in [false, true] {
                let (_, mut f) = oracle::start(2, &[3, 5]);
                f.done = done;
                let estimate = rng.below(16) as u8;
                let other = gen::any_truck(&mut rng);
                f.trucks[1] = Truck { opening: 5, estimate, state, unwilling, ..other };
                let words = a_round(SixRound, &mut rng, &f);
                same::step(SixRound, &f, &words);
                same::step(TwoRound, &f, &words);
                // the same in a place that is not read
                f.n = 1;
                same::step(SixRound, &f, &[0, 1, 0, 0]);
            }
        }
    }
}

#[test]
fn changed_record_bytes() {
    EXPORTED.changed_record_bytes(112, 14_000);
}

/// Two trucks: every round from every state that can be reached in two cycles, and with zero complete marks agreement.
#[test]
fn every_reachable_state_of_two_trucks() {
    let rounds = (0..256u32).map(|bits| {
        let pair = |place: u32| bits >> place & 3;
        [pair(0), pair(2), pair(4), (bits >> 6 & 1) << 1, bits >> 7 & 1]
    });
    let rounds: Vec<[u32; 5]> = rounds.collect();
    for openings in [[3, 5], [0, 15], [10, 10]] {
        // each state with whether marks can have been zero complete all along
        let mut reached = vec![(oracle::start(2, &openings).1, true)];
        for _ in 1..=12 {
            let mut next = BTreeMap::new();
            for (fleet, zero) in &reached {
                for words in &rounds {
                    let (number, after) = same::step(SixRound, fleet, words);
                    assert_eq!(number, 0);
                    let radio = oracle::steps::radio(SixRound, fleet, words);
                    let zero = *zero && marks::classes(&radio).zero;
                    if zero {
                        same::agrees(&record_bytes(&after), &openings);
                    }
                    let entry = next.entry(record_bytes(&after)).or_insert((after, zero));
                    entry.1 |= zero;
                }
            }
            reached = next.into_values().collect();
        }
        let disagreements = reached.iter().filter(|(fleet, _)| !lists::agreed(fleet));
        assert_eq!(disagreements.count() > 0, openings[0] != openings[1]);
    }
}

/// A run worked by hand: 3 and 5 hear only themselves, and both decide their own in round 6; the bits of round 3 are the first of which one is not heard at all.
#[test]
fn apart() {
    let words = [0, 0b11, 0, 0b10, 0b01].repeat(6);
    let bytes = gen::bytes_of(&Plain { n: 2, rounds: 6, openings: vec![3, 5], words });
    let mut d = [0; RECORD];
    assert_eq!(checks::run(SixRound, &bytes, &mut d), 0);
    assert_eq!(d[3..13], [3, 3, 0, 0, 2, 6, 0, 0, 0, 0]);
    assert_eq!(d[13..23], [5, 5, 0, 0, 2, 6, 0, 0, 0, 0]);
    let mut grades = [9; 4];
    assert_eq!((checks::grade(SixRound, &bytes, &mut grades), grades), (0, [1, 1, 3, 0]));
}
