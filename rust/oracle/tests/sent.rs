//! How much each truck sent: the counts of a record, refusal 7 of them, and
//! the record as bytes.

use oracle::bytes::{self, place_of, record_bytes, record_of, PLACE, RECORD};
use oracle::fleet::record_refused;
use oracle::gen::{self, Rng, FULL, SMALL, TINY};
use oracle::lists::{play, recording_of, sent_by_the_rules};
use oracle::Cycle::TwoRound;
use oracle::*;

fn counts(fleet: &Fleet) -> Vec<Sent> {
    fleet.trucks_below_n().iter().map(|truck| truck.sent).collect()
}

/// Counts given as (proposals, vetoes).
fn sent(list: &[(u8, u8)]) -> Vec<Sent> {
    list.iter().map(|&(proposals, vetoes)| Sent { proposals, vetoes }).collect()
}

/// The counts after each of some steps, all accepted, by both readings.
fn counts_after_each(openings: &[u8], rounds: &[&[u32]]) -> Vec<Vec<Sent>> {
    let (_, mut fleet) = start(openings.len() as u64, openings);
    assert!(fleet.trucks.iter().all(|truck| truck.sent == Sent::default()));
    let mut list = Vec::new();
    for words in rounds {
        let (number, next) = step(TwoRound, &fleet, words);
        assert_eq!(number, 0);
        assert_eq!(fast::step(&fleet, words), (0, next));
        list.push(counts(&next));
        fleet = next;
    }
    list
}

#[test]
fn a_start_and_a_blank_record_have_no_counts() {
    for fleet in [Fleet::blank(), start(32, &[1; 32]).1, start(0, &[]).1] {
        assert!(fleet.trucks.iter().all(|truck| truck.sent == Sent::default()));
    }
}

/// Two trucks: what makes a truck send, and what does not.
#[test]
fn a_step_adds_1_exactly_where_a_truck_sends() {
    let hold = |what: &str, openings: [u8; 2], rounds: &[&[u32]], expected: [(u8, u8); 2]| {
        let after = counts_after_each(&openings, rounds);
        assert_eq!(after.last().unwrap(), &sent(&expected), "{what}");
    };
    let silent = [0; 5];
    let both = [0, 0b11, 0, 0, 0];
    hold("active bits send in odd rounds", [3, 5], &[&[0, 0b01, 0, 0, 0]], [(1, 0), (0, 0)]);
    hold("active bits do nothing in even rounds", [4, 4], &[&silent, &both], [(0, 0), (0, 0)]);
    hold("a marked truck sends all the same", [3, 5], &[&[0, 0b11, 0b11, 0, 0]], [(1, 0), (1, 0)]);
    hold("a mark makes a veto", [4, 4], &[&[0, 0b01, 0b10, 0, 0], &silent], [(1, 0), (0, 1)]);
    hold("several values make one", [3, 5], &[&[0, 0b11, 0, 0, 0b01], &silent], [(1, 1), (1, 0)]);
    hold("a mark in a veto round makes none", [4, 4], &[&both, &[0, 0, 3, 0, 0]], [(1, 0), (1, 0)]);
    hold("who stops does not propose", [3, 5], &[&[0b10, 0b11, 0, 0, 0]], [(1, 0), (0, 0)]);
    hold("who stops does not veto", [3, 5], &[&both, &[0b10, 0, 0, 0, 0]], [(1, 1), (1, 0)]);
}

/// Messages that are lost were sent.
#[test]
fn losses_change_no_count() {
    let lossy = |active| [0, active, 0, 0b110, 0b101, 0b011];
    let after = counts_after_each(&[1, 2, 3], &[&lossy(0b111), &lossy(0), &lossy(0b101)]);
    assert_eq!(after[0], sent(&[(1, 0); 3]));
    // Each heard only its own value, so each decides in round 2.
    assert_eq!(after[1..], [sent(&[(1, 0); 3]), sent(&[(1, 0); 3])]);
}

/// Truck 0 stops in round 3 and truck 1 decides in round 4; truck 2 goes on.
#[test]
fn stopped_and_decided_trucks_keep_their_counts() {
    let all = [0, 0b111, 0, 0, 0, 0];
    let silent = [0; 6];
    let stop = [0b001, 0b111, 0, 0, 0, 0];
    let hold = [0, 0, 0b100, 0, 0, 0];
    // Every bit of a truck that is out of it, set.
    let out = [0b011, 0b111, 0b011, 0, 0b100, 0b011];
    let after = counts_after_each(&[3, 5, 3], &[&all, &silent, &stop, &hold, &out, &out]);
    assert_eq!(after[0], sent(&[(1, 0), (1, 0), (1, 0)]));
    assert_eq!(after[1], sent(&[(1, 1), (1, 1), (1, 1)]));
    assert_eq!(after[2], sent(&[(1, 1), (2, 1), (2, 1)]));
    assert_eq!(after[3], sent(&[(1, 1), (2, 1), (2, 1)]));
    assert_eq!(after[4], sent(&[(1, 1), (2, 1), (3, 1)]));
    // Truck 2 heard its own value alone.
    assert_eq!(after[5], after[4]);
}

/// One truck that is always active and marked, and one that never sends.
#[test]
fn sending_in_every_one_of_400_rounds() {
    let words = [0, 0b01, 0b01, 0, 0].repeat(400);
    let bytes = write(2, 400, &[9, 9], &words).unwrap();
    let (number, fleet) = run(TwoRound, &bytes);
    assert_eq!(number, 0);
    assert_eq!(fast::run(&bytes), (0, fleet));
    assert_eq!(counts(&fleet), sent(&[(200, 200), (0, 0)]));
    assert!(listing(&bytes)
        .starts_with("trucks 2 rounds 400\n0 opened 9 running 9 sent 200 vetoes 200\n"));
    assert!(listing(&bytes).ends_with("vetoes 0\nsent 200 vetoes 200\n"));
    // Stepped, the counts are those of the rounds done.
    let (_, mut fleet) = start(2, &[9, 9]);
    for done in 1..=400u16 {
        let (number, next) = step(TwoRound, &fleet, &words[..5]);
        assert_eq!((number, next.done), (0, done));
        assert_eq!(next.trucks[0].sent, gen::most_sent(done));
        fleet = next;
    }
    assert_eq!(step(TwoRound, &fleet, &words[..5]), (14, fleet));
}

/// The totals of 32 trucks do not fit in a byte.
#[test]
fn totals_of_the_largest_fleet() {
    let words = [[0, u32::MAX, u32::MAX].as_slice(), &[0; 32]].concat().repeat(400);
    let bytes = write(32, 400, &[15; 32], &words).unwrap();
    let (_, fleet) = run(TwoRound, &bytes);
    assert_eq!(fleet.totals(), (6_400, 6_400));
    assert!(listing(&bytes).ends_with("\nsent 6400 vetoes 6400\n"));
}

/// Every number of rounds done, at the limits and one above, for each state.
#[test]
fn refusal_7_of_the_counts() {
    for done in 0..=400u16 {
        let [odd, even] = [1, 0].map(|kind| (1..=done).filter(|round| round % 2 == kind).count());
        let mut states = vec![State::Running];
        states.extend((done >= 1).then_some(State::Stopped(1)));
        states.extend((done >= 2).then_some(State::Decided(2)));
        for state in states {
            let answer = |proposals: usize, vetoes: usize| {
                let mut fleet = Fleet { n: 3, done, ..Fleet::blank() };
                let sent = Sent { proposals: proposals as u8, vetoes: vetoes as u8 };
                fleet.trucks[2] = Truck { state, sent, ..Truck::opened(5) };
                let (number, next) = step(TwoRound, &fleet, &[0; 6]);
                assert_eq!(fast::step(&fleet, &[0; 6]), (number, next));
                if number == 7 {
                    assert_eq!(next, fleet);
                }
                number
            };
            let taken = if done == 400 { 14 } else { 0 };
            assert_eq!(answer(odd, even), taken, "{done} {state:?}");
            assert_eq!(answer(odd + 1, even), 7, "{done} {state:?}");
            assert_eq!(answer(odd, even + 1), 7, "{done} {state:?}");
            assert_eq!(answer(255, 0), 7, "{done} {state:?}");
            assert_eq!(answer(0, 255), 7, "{done} {state:?}");
        }
    }
}

#[test]
fn counts_are_the_rounds_in_which_the_rules_make_a_truck_send() {
    let mut rng = Rng::new(71);
    let mut most = [0, 0];
    for k in 0..4_000 {
        let limits = match k % 100 {
            0 => FULL,
            1..=20 => SMALL,
            _ => TINY,
        };
        let plain = gen::plain(TwoRound, &mut rng, limits);
        let expected = sent_by_the_rules(&plain);
        let bytes = gen::bytes_of(&plain);
        let (_, fleet) = run(TwoRound, &bytes);
        assert_eq!(counts(&fleet), expected, "{bytes:02x?}");
        assert!(!record_refused(TwoRound, &fleet));
        let sums = expected.iter().fold((0, 0), |(p, v), sent| {
            (p + u32::from(sent.proposals), v + u32::from(sent.vetoes))
        });
        assert_eq!(fleet.totals(), sums);
        assert!(listing(&bytes).ends_with(&format!("\nsent {} vetoes {}\n", sums.0, sums.1)));
        most = [most[0].max(sums.0), most[1].max(sums.1)];
        // Whole lists of steps, refused ones among them.
        let list = gen::list_around(&mut rng, &plain, 40);
        let (_, fleet) = play(&list, |_| TwoRound).unwrap();
        assert_eq!(counts(&fleet), sent_by_the_rules(&recording_of(&list)));
    }
    // Some totals do not fit in a byte.
    assert!(most.iter().all(|sum| *sum > 255), "{most:?}");
}

/// From any record that is accepted, a step adds what the radio has.
#[test]
fn a_step_adds_what_is_on_the_air() {
    let mut rng = Rng::new(72);
    let mut added = [0, 0];
    for _ in 0..4_000 {
        let fleet = gen::record(TwoRound, &mut rng);
        let habits = gen::habits(&mut rng);
        let words =
            gen::round(TwoRound, &mut rng, fleet.n as usize, fleet.done as usize + 1, &habits);
        let (number, next) = step(TwoRound, &fleet, &words);
        if number != 0 {
            assert_eq!(counts(&next), counts(&fleet));
            continue;
        }
        let radio = steps::radio(TwoRound, &fleet, &words);
        for (i, (before, after)) in counts(&fleet).into_iter().zip(counts(&next)).enumerate() {
            let one = radio.sends[i] as u8;
            let more = (after.proposals - before.proposals, after.vetoes - before.vetoes);
            assert_eq!(more, if next.done % 2 == 1 { (one, 0) } else { (0, one) });
            added[next.done as usize % 2] += one as usize;
        }
        assert!(!record_refused(TwoRound, &next));
    }
    assert!(added.iter().all(|count| *count > 2_000), "{added:?}");
}

/// Every byte of a place, by hand.
#[test]
fn a_record_as_bytes() {
    assert_eq!((PLACE, RECORD), (10, 323));
    assert_eq!([0, 1, 31].map(place_of), [3, 13, 313]);
    let (_, mut fleet) = start(3, &[3, 5, 7]);
    fleet.done = 0x0103;
    fleet.trucks[0] = Truck {
        opening: 3,
        estimate: 4,
        mark: true,
        heard: Heard::Several,
        unwilling: true,
        state: State::Running,
        sent: Sent { proposals: 130, vetoes: 129 },
    };
    fleet.trucks[1].state = State::Stopped(0x0102);
    fleet.trucks[1].sent.vetoes = 6;
    fleet.trucks[2].state = State::Decided(8);
    fleet.trucks[2].heard = Heard::One;
    fleet.trucks[2].sent.proposals = 4;
    let mut expected = vec![3, 0x03, 0x01];
    expected.extend([3, 4, 1, 2, 0, 0, 0, 130, 129, 1]);
    expected.extend([5, 5, 0, 0, 1, 0x02, 0x01, 0, 6, 0]);
    expected.extend([7, 7, 0, 1, 2, 8, 0, 4, 0, 0]);
    expected.resize(323, 0);
    assert_eq!(record_bytes(&fleet).to_vec(), expected);
    assert_eq!(record_of(&record_bytes(&fleet)), Some(fleet));
}

/// A record stepped as bytes is the record stepped; places from n on stay.
#[test]
fn records_stepped_as_bytes() {
    let mut rng = Rng::new(73);
    for _ in 0..4_000 {
        let fleet = gen::record(TwoRound, &mut rng);
        let habits = gen::habits(&mut rng);
        let words =
            gen::round(TwoRound, &mut rng, fleet.n as usize, fleet.done as usize + 1, &habits);
        let (expected, next) = step(TwoRound, &fleet, &words);
        let mut lent = record_bytes(&fleet).to_vec();
        lent.extend([0xEE; 3]);
        let mut fast_lent = lent.clone();
        assert_eq!(bytes::step(&mut lent, &words, |f, w| step(TwoRound, f, w)), expected);
        assert_eq!(lent, [&record_bytes(&next)[..], &[0xEE; 3]].concat());
        assert_eq!(fast::step_bytes(&mut fast_lent, &words), expected);
        assert_eq!(fast_lent, lent);
    }
    for length in 0..RECORD {
        let mut short = vec![1; length];
        assert_eq!(bytes::step(&mut short, &[0; 4], |f, w| step(TwoRound, f, w)), 7);
        assert_eq!(short, vec![1; length]);
    }
}

#[test]
fn damaged_bytes_below_n_are_refused() {
    let mut rng = Rng::new(74);
    for _ in 0..4_000 {
        let damaged = gen::damaged_record(TwoRound, &mut rng);
        let habits = gen::habits(&mut rng);
        let n = damaged.fleet.n as usize;
        let words = gen::round(TwoRound, &mut rng, n, damaged.fleet.done as usize + 1, &habits);
        let (number, next) = step(TwoRound, &damaged.fleet, &words);
        assert_eq!(number, 0, "{}", damaged.how);
        let mut lent = damaged.bytes;
        let answer = bytes::step(&mut lent, &words, |f, w| step(TwoRound, f, w));
        if damaged.refused {
            assert_eq!((answer, lent), (7, damaged.bytes), "{}", damaged.how);
        } else {
            assert_eq!(answer, 0, "{}", damaged.how);
            let end = place_of(n);
            assert_eq!(lent[..end], record_bytes(&next)[..end]);
            assert_eq!(lent[end..], damaged.bytes[end..]);
        }
    }
}
