//! What the generators reach: every refusal number, and every branch of the
//! rules that is easy to count.

use std::collections::{BTreeMap, BTreeSet};

use oracle::fleet::record_refused;
use oracle::gen::{self, Rng, FULL, SMALL};
use oracle::lists::play;
use oracle::marks::radios;
use oracle::steps::follow;
use oracle::Cycle::TwoRound;
use oracle::*;

#[test]
fn every_refusal_number_is_produced() {
    let mut rng = Rng::new(61);
    let mut met = BTreeSet::new();
    for k in 0..240u8 {
        let damaged = gen::damaged(&mut rng, SMALL, k % 6 + 1);
        met.insert(run(TwoRound, &damaged.bytes).0);
        let w = gen::writing(&mut rng, SMALL, [2, 3, 7, 8, 6, 9][k as usize % 6]);
        let mut buffer = vec![0; w.buffer];
        met.extend(write_into(w.n, w.rounds, &w.openings, &w.words, &mut buffer).err());
        let lists = gen::refused_roads(&mut rng, 10 + k % 4);
        met.extend(opening(&lists.lengths, &lists.metres, &lists.seconds).err());
    }
    met.extend(play(&gen::long_list(TwoRound, &mut rng, 4), |_| TwoRound).unwrap().0);
    met.remove(&0);
    assert_eq!(met, (1..=14).collect());
}

/// Names of what happens to a running truck in a round.
fn events(before: &Truck, after: &Truck, radio: &Radio, i: usize) -> Vec<&'static str> {
    let (mark, heard, missed) = (radio.mark_bit[i], radio.heard(i), radio.missed(i));
    let mut list = vec![];
    let mut note = |holds: bool, name| {
        if holds {
            list.push(name);
        }
    };
    let others = radio.messages() > radio.sends[i] as usize;
    if !radio.running[i] {
        note(radio.is_proposal(), "stops in a proposal round");
        note(!radio.is_proposal(), "stops in a veto round");
        note(before.sent != Sent::default(), "stops after messages sent");
        note(!before.memory_is_empty(), "stops with a memory");
        return list;
    }
    note(mark && missed == 0, "false mark");
    note(mark && missed > 0, "true mark");
    note(!mark && missed > 0 && 2 * heard > radio.messages(), "misses a minority unmarked");
    note(!mark && missed > 0 && 2 * heard == radio.messages(), "hears just half unmarked");
    note(!mark && others && heard == 0, "hears none of some unmarked");
    if radio.is_proposal() {
        note(radio.sends[i], "proposes");
        note(radio.sends[i] && mark, "proposes with a mark");
        note(after.estimate < before.estimate, "takes a lower value");
        note(after.estimate > before.estimate, "takes a higher value");
        note(mark && after.heard == Heard::Nothing, "marked with no value");
        note(mark && after.heard == Heard::One, "marked with one value");
        note(mark && after.heard == Heard::Several, "marked with several values");
        note(!mark && after.heard == Heard::Nothing, "unmarked with no value");
        note(!mark && after.heard == Heard::One, "unmarked with one value");
        note(!mark && after.heard == Heard::Several, "unmarked with several values");
        note(after.heard == Heard::One && heard > 1, "equal messages");
    } else {
        let decides = after.state != State::Running;
        note(before.mark && before.heard != Heard::Several, "vetoes by a mark");
        note(!before.mark && before.heard == Heard::Several, "vetoes by several values");
        note(decides, "decides");
        note(decides && before.sent.vetoes > 0, "decides after vetoes sent");
        note(decides && missed > 0, "decides with a veto missed");
        let one = before.heard == Heard::One && !before.mark;
        note(one && heard > 0, "held back by a veto");
        note(one && heard == 0 && mark, "held back by a mark");
        note(before.memory_is_empty() && heard == 0 && !mark, "silent, runs on");
    }
    list
}

#[test]
fn every_branch_of_the_rules_is_taken() {
    let mut rng = Rng::new(62);
    let mut counts: BTreeMap<&str, usize> = BTreeMap::new();
    let mut endings = BTreeMap::new();
    for k in 0..2_000 {
        let limits = if k % 40 == 0 { FULL } else { SMALL };
        let plain = gen::plain(TwoRound, &mut rng, limits);
        let (_, mut fleet) = start(plain.n as u64, &plain.openings);
        for (index, radio) in radios(TwoRound, &plain).iter().enumerate() {
            let next = follow(TwoRound, &fleet, plain.round(index + 1));
            if radio.running_trucks().is_empty() {
                *counts.entry("nobody runs").or_insert(0) += 1;
            }
            for i in 0..plain.n {
                let (before, after) = (&fleet.trucks[i], &next.trucks[i]);
                if before.is_running() {
                    for name in events(before, after, radio, i) {
                        *counts.entry(name).or_insert(0) += 1;
                    }
                } else {
                    assert_eq!(before, after);
                    *counts.entry("out of it already").or_insert(0) += 1;
                }
            }
            fleet = next;
        }
        for truck in fleet.trucks_below_n() {
            let ending = match truck.state {
                State::Running => "running",
                State::Stopped(_) => "stopped",
                State::Decided(2) => "decided at once",
                State::Decided(_) => "decided later",
            };
            *endings.entry(ending).or_insert(0) += 1;
        }
    }
    assert_eq!(counts.len(), 30, "{counts:?}");
    assert!(counts.values().all(|count| *count > 100), "{counts:?}");
    assert_eq!(endings.len(), 4);
    assert!(endings.values().all(|count| *count > 500), "{endings:?}");
}

/// What a truck's counts are beside the most that may be: each alone.
fn counts(truck: &Truck, done: u16) -> [&'static str; 2] {
    let most = gen::most_sent(done);
    let place = |count: u8, most: u8| match (count, most) {
        (_, 0) => "none possible",
        (0, _) => "none",
        (count, most) if count == most => "most",
        _ => "between",
    };
    [place(truck.sent.proposals, most.proposals), place(truck.sent.vetoes, most.vetoes)]
}

/// Accepted records have trucks of every state with none, some and the most of
/// each count, after even and odd rounds; and above n counts that no truck has.
#[test]
fn counts_reach_their_limits() {
    let mut rng = Rng::new(66);
    let mut met = BTreeMap::new();
    let mut wild = [0; 2];
    for _ in 0..4_000 {
        let fleet = gen::record(TwoRound, &mut rng);
        assert!(!record_refused(TwoRound, &fleet));
        for truck in fleet.trucks_below_n() {
            let state = match truck.state {
                State::Running => "running",
                State::Stopped(_) => "stopped",
                State::Decided(_) => "decided",
            };
            for (kind, count) in ["proposals", "vetoes"].into_iter().zip(counts(truck, fleet.done))
            {
                if count != "none possible" {
                    *met.entry((kind, state, fleet.done % 2, count)).or_insert(0) += 1;
                }
            }
        }
        for truck in &fleet.trucks[fleet.n as usize..] {
            wild[0] += (truck.sent.proposals > 200) as usize;
            wild[1] += (truck.sent.vetoes > 200) as usize;
        }
    }
    assert_eq!(met.len(), 2 * 3 * 2 * 3, "{met:?}");
    assert!(met.values().all(|count| *count > 100), "{met:?}");
    assert!(wild.iter().all(|count| *count > 1_000), "{wild:?}");
}

/// Each way to damage a byte of a record is met below n and from n on.
#[test]
fn bytes_of_records_are_damaged_in_every_way() {
    let mut rng = Rng::new(67);
    let mut met = BTreeMap::new();
    for _ in 0..2_000 {
        let damaged = gen::damaged_record(TwoRound, &mut rng);
        *met.entry((damaged.how, damaged.refused)).or_insert(0) += 1;
    }
    assert_eq!(met.len(), 2 * 5, "{met:?}");
    assert!(met.values().all(|count| *count > 50), "{met:?}");
}

#[test]
fn sizes_reach_their_edges() {
    let mut rng = Rng::new(63);
    let sizes: Vec<_> = (0..2_000).map(|_| gen::size(&mut rng, FULL)).collect();
    let trucks: BTreeSet<_> = sizes.iter().map(|size| size.n).collect();
    assert_eq!(trucks, (1..=32).collect());
    assert!(sizes.iter().any(|size| size.rounds == 0));
    assert!(sizes.iter().any(|size| size.n == 32 && size.rounds == 400));
    assert!(sizes.iter().any(|size| size.rounds % 2 == 1));
}

#[test]
fn the_same_seed_makes_the_same_inputs() {
    let make = || {
        let mut rng = Rng::new(64);
        let recording = gen::recording(TwoRound, &mut rng, FULL);
        let list = gen::list(TwoRound, &mut rng, SMALL);
        let roads = gen::roads(&mut rng);
        (recording, list, roads, rng.next_u64())
    };
    assert_eq!(make(), make());
    // Splitmix64 from seed 0.
    assert_eq!(Rng::new(0).next_u64(), 0xE220_A839_7B1D_CDAF);
}

#[test]
fn listings_have_the_three_kinds_of_lines() {
    let mut rng = Rng::new(65);
    let mut kinds = BTreeSet::new();
    for _ in 0..200 {
        let bytes = gen::recording(TwoRound, &mut rng, SMALL);
        let text = listing(&bytes);
        let header = check(&bytes).unwrap();
        let lines: Vec<_> = text.lines().collect();
        assert!(text.ends_with('\n'));
        assert_eq!(lines.len(), header.n + 2);
        assert_eq!(lines[0], format!("trucks {} rounds {}", header.n, header.rounds));
        let mut totals = [0, 0];
        for (i, line) in lines[1..=header.n].iter().enumerate() {
            let words: Vec<_> = line.split(' ').collect();
            assert_eq!((words[0], words[1]), (i.to_string().as_str(), "opened"));
            assert_eq!(words.len(), if words[3] == "running" { 9 } else { 11 });
            let [sent, proposals, vetoed, vetoes] = words[words.len() - 4..] else {
                unreachable!()
            };
            assert_eq!((sent, vetoed), ("sent", "vetoes"));
            totals[0] += proposals.parse::<u32>().unwrap();
            totals[1] += vetoes.parse::<u32>().unwrap();
            kinds.insert(words[3].to_string());
        }
        assert_eq!(lines[header.n + 1], format!("sent {} vetoes {}", totals[0], totals[1]));
        // In a lent buffer.
        let mut buffer = vec![b'#'; text.len() + 3];
        assert_eq!(listing_into(&bytes, &mut buffer), Ok(text.len()));
        assert_eq!(buffer, [text.as_bytes(), b"###"].concat());
        let mut short = vec![b'#'; text.len() - 1];
        assert_eq!(listing_into(&bytes, &mut short), Err(9));
        assert!(short.iter().all(|byte| *byte == b'#'));
    }
    assert_eq!(kinds.len(), 3);
}
