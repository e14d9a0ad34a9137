//! Fleet records that refusal 7 accepts, and records with each of its conditions broken alone.

use super::chance::Rng;
use crate::bytes::{place_of, record_bytes, RECORD};
use crate::cycle::Cycle;
use crate::fleet::{Fleet, Heard, Sent, State, Truck, PLACES};

/// Any truck at all, also one that no rule would make.
pub fn any_truck(rng: &mut Rng) -> Truck {
    let round = rng.pick(&[0, 1, 2, 3, 399, 400, 401, 402, 65_535]);
    Truck {
        opening: rng.pick(&[0, 1, 15, 16, 255]),
        estimate: rng.pick(&[0, 1, 15, 16, 255]),
        mark: rng.chance(128),
        heard: rng.pick(&[Heard::Nothing, Heard::One, Heard::Several]),
        unwilling: rng.chance(128),
        state: rng.pick(&[State::Running, State::Stopped(round), State::Decided(round)]),
        sent: Sent {
            proposals: rng.pick(&[0, 1, 199, 200, 201, 255]),
            vetoes: rng.pick(&[0, 1, 199, 200, 201, 255]),
        },
    }
}

/// The most messages of each kind that refusal 7 accepts after `done` rounds.
pub fn most_sent(done: u16) -> Sent {
    Sent { proposals: done.div_ceil(2) as u8, vetoes: (done / 2) as u8 }
}

/// A truck that refusal 7 of these cycles accepts after `done` rounds, in any
/// state. The part of another cycle is anything.
fn good_truck(cycles: &[Cycle], rng: &mut Rng, done: u16) -> Truck {
    let mut truck = any_truck(rng);
    truck.opening = rng.below(16) as u8;
    truck.estimate = rng.below(16) as u8;
    // A multiple of 6 is one of 2.
    let length = cycles.iter().map(|cycle| cycle.rounds()).max().unwrap();
    truck.state = match rng.below(4) {
        0 if done >= 1 => State::Stopped(edge_or_any(rng, 1, done)),
        1 if done >= length => State::Decided(length * edge_or_any(rng, 1, done / length)),
        _ => State::Running,
    };
    for cycle in cycles {
        match cycle {
            Cycle::TwoRound => two_round_part(rng, &mut truck, done),
            Cycle::SixRound => {
                truck.unwilling = truck.is_running() && done % 6 >= 2 && rng.chance(128);
            }
        }
    }
    truck
}

/// Sets the memory and the counts so that refusal 7 of the two-round cycle
/// accepts them.
fn two_round_part(rng: &mut Rng, truck: &mut Truck, done: u16) {
    let most = most_sent(done);
    truck.sent.proposals = edge_or_any(rng, 0, most.proposals.into()) as u8;
    truck.sent.vetoes = edge_or_any(rng, 0, most.vetoes.into()) as u8;
    *truck = truck.with_empty_memory();
    if truck.is_running() && done % 2 == 1 {
        truck.mark = rng.chance(100);
        truck.heard = rng.pick(&[Heard::Nothing, Heard::One, Heard::One, Heard::Several]);
    }
}

fn edge_or_any(rng: &mut Rng, low: u16, high: u16) -> u16 {
    match rng.below(4) {
        0 => low,
        1 => high,
        _ => rng.within(low as usize, high as usize) as u16,
    }
}

/// A record that refusal 7 of a cycle accepts, every fourth one a record by all
/// cycles; places n and above hold anything.
pub fn good_record(cycle: Cycle, rng: &mut Rng, n: usize, done: u16) -> Fleet {
    let one = [cycle];
    let cycles: &[Cycle] = if rng.chance(64) { &Cycle::ALL } else { &one };
    let mut fleet = Fleet { n: n as u8, done, ..Fleet::blank() };
    for i in 0..PLACES {
        fleet.trucks[i] = if i < n { good_truck(cycles, rng, done) } else { any_truck(rng) };
    }
    fleet
}

/// A random record that refusal 7 of a cycle accepts, with 400 rounds done at
/// times.
pub fn record(cycle: Cycle, rng: &mut Rng) -> Fleet {
    let any = rng.within(1, 32);
    let n = rng.pick(&[1, 2, 3, 5, 8, 31, 32, any]);
    let any = rng.within(0, 400) as u16;
    let done = rng.pick(&[0, 1, 2, 3, 4, 5, 398, 399, 400, any, any]);
    good_record(cycle, rng, n, done)
}

/// A record with one condition of refusal 7 broken at one place.
#[derive(Clone, Debug)]
pub struct Broken {
    pub fleet: Fleet,
    pub condition: &'static str,
    /// The place broken; nothing where it is n or the rounds done.
    pub place: Option<usize>,
    /// False where only a place at or above n is broken.
    pub refused: bool,
}

/// A way to break a truck: name, rounds done that fit, and the truck after it.
type Fault = (&'static str, fn(&mut Rng) -> u16, fn(&mut Rng, Truck, u16) -> Truck);

fn any_done(rng: &mut Rng) -> u16 {
    rng.within(0, 399) as u16
}

fn even_done(rng: &mut Rng) -> u16 {
    2 * rng.within(0, 199) as u16
}

fn odd_done(rng: &mut Rng) -> u16 {
    2 * rng.within(1, 199) as u16 + 1
}

/// Enough rounds for a stop or a decision.
fn late_even_done(rng: &mut Rng) -> u16 {
    2 * rng.within(1, 199) as u16
}

fn high_crusher(rng: &mut Rng) -> u8 {
    rng.pick(&[16, 17, 31, 128, 255])
}

fn running(opening: u8) -> Truck {
    Truck::opened(opening)
}

fn with(truck: Truck, state: State) -> Truck {
    Truck { state, ..running(truck.opening) }
}

/// One proposal more than odd rounds are done, or many more.
fn proposals_above(rng: &mut Rng, truck: Truck, done: u16) -> Truck {
    let most = most_sent(done);
    let proposals = rng.pick(&[most.proposals + 1, most.proposals + 1, 255]);
    Truck { sent: Sent { proposals, ..most }, ..truck }
}

/// One veto more than even rounds are done, or many more.
fn vetoes_above(rng: &mut Rng, truck: Truck, done: u16) -> Truck {
    let most = most_sent(done);
    let vetoes = rng.pick(&[most.vetoes + 1, most.vetoes + 1, 255]);
    Truck { sent: Sent { vetoes, ..most }, ..truck }
}

const FAULTS: [Fault; 31] = [
    ("opening above 15", any_done, |r, t, _| Truck { opening: high_crusher(r), ..t }),
    ("opening above 15, running", any_done, |r, t, _| Truck {
        opening: high_crusher(r),
        ..running(t.opening)
    }),
    ("opening above 15, stopped", odd_done, |r, t, _| Truck {
        opening: high_crusher(r),
        ..with(t, State::Stopped(1))
    }),
    ("opening above 15, decided", odd_done, |r, t, _| Truck {
        opening: high_crusher(r),
        ..with(t, State::Decided(2))
    }),
    ("estimate above 15, running", any_done, |r, t, _| Truck {
        estimate: high_crusher(r),
        ..running(t.opening)
    }),
    ("estimate above 15, stopped", odd_done, |r, t, _| Truck {
        estimate: high_crusher(r),
        ..with(t, State::Stopped(1))
    }),
    ("estimate above 15, decided", odd_done, |r, t, _| Truck {
        estimate: high_crusher(r),
        ..with(t, State::Decided(2))
    }),
    ("decided in round 0", any_done, |_, t, _| with(t, State::Decided(0))),
    ("decided in an odd round", odd_done, |r, t, done| {
        with(t, State::Decided(2 * edge_or_any(r, 0, done / 2) + 1))
    }),
    ("decided in a later round", any_done, |r, t, done| {
        with(t, State::Decided(done + 2 - done % 2 + r.pick(&[0, 0, 2, 400, 65_000])))
    }),
    ("stopped in round 0", any_done, |_, t, _| with(t, State::Stopped(0))),
    ("stopped in a later round", any_done, |r, t, done| {
        with(t, State::Stopped(done + 1 + r.pick(&[0, 0, 1, 2, 400, 65_000])))
    }),
    ("mark after even rounds", even_done, |_, t, _| Truck { mark: true, ..running(t.opening) }),
    ("one value after even rounds", even_done, |_, t, _| Truck {
        heard: Heard::One,
        ..running(t.opening)
    }),
    ("several values after even rounds", even_done, |_, t, _| Truck {
        heard: Heard::Several,
        ..running(t.opening)
    }),
    ("stopped with a mark", odd_done, |_, t, done| Truck {
        mark: true,
        ..with(t, State::Stopped(done))
    }),
    ("stopped with values", odd_done, |r, t, done| Truck {
        heard: r.pick(&[Heard::One, Heard::Several]),
        ..with(t, State::Stopped(done))
    }),
    ("decided with a mark", odd_done, |_, t, done| Truck {
        mark: true,
        ..with(t, State::Decided(done - 1))
    }),
    ("decided with values", odd_done, |r, t, done| Truck {
        heard: r.pick(&[Heard::One, Heard::Several]),
        ..with(t, State::Decided(done - 1))
    }),
    ("proposals above, running, even rounds", even_done, |r, t, done| {
        proposals_above(r, running(t.opening), done)
    }),
    ("proposals above, running, odd rounds", odd_done, |r, t, done| {
        proposals_above(r, running(t.opening), done)
    }),
    ("proposals above, stopped, even rounds", late_even_done, |r, t, done| {
        proposals_above(r, with(t, State::Stopped(done)), done)
    }),
    ("proposals above, stopped, odd rounds", odd_done, |r, t, done| {
        proposals_above(r, with(t, State::Stopped(1)), done)
    }),
    ("proposals above, decided, even rounds", late_even_done, |r, t, done| {
        proposals_above(r, with(t, State::Decided(done)), done)
    }),
    ("proposals above, decided, odd rounds", odd_done, |r, t, done| {
        proposals_above(r, with(t, State::Decided(2)), done)
    }),
    ("vetoes above, running, even rounds", even_done, |r, t, done| {
        vetoes_above(r, running(t.opening), done)
    }),
    ("vetoes above, running, odd rounds", odd_done, |r, t, done| {
        vetoes_above(r, running(t.opening), done)
    }),
    ("vetoes above, stopped, even rounds", late_even_done, |r, t, done| {
        vetoes_above(r, with(t, State::Stopped(1)), done)
    }),
    ("vetoes above, stopped, odd rounds", odd_done, |r, t, done| {
        vetoes_above(r, with(t, State::Stopped(done)), done)
    }),
    ("vetoes above, decided, even rounds", late_even_done, |r, t, done| {
        vetoes_above(r, with(t, State::Decided(2)), done)
    }),
    ("vetoes above, decided, odd rounds", odd_done, |r, t, done| {
        vetoes_above(r, with(t, State::Decided(done - 1)), done)
    }),
];

/// One cycle of six at least, and so many rounds of the next as named.
fn six_done(rng: &mut Rng, of_it: &[u16]) -> u16 {
    6 * rng.within(1, 65) as u16 + rng.pick(of_it)
}

fn late_done(rng: &mut Rng) -> u16 {
    six_done(rng, &[0, 1, 2, 3, 4, 5])
}

/// Of the cycle at most prepare has been.
fn willing_done(rng: &mut Rng) -> u16 {
    six_done(rng, &[0, 1])
}

/// A bit round has been, and accept is yet to come.
fn unwilling_done(rng: &mut Rng) -> u16 {
    six_done(rng, &[2, 3, 4, 5])
}

/// Some round up to those done that is no multiple of 6, also an even one.
fn no_accept(rng: &mut Rng, done: u16) -> u16 {
    let cycle = rng.below(done as usize / 6) as u16;
    6 * cycle + rng.pick(&[1, 2, 3, 4, 5])
}

/// The first round of accept after those done, or a later one.
fn later_accept(rng: &mut Rng, done: u16) -> u16 {
    done / 6 * 6 + rng.pick(&[6, 6, 12, 402, 60_000])
}

fn unwilling(truck: Truck) -> Truck {
    Truck { unwilling: true, ..truck }
}

/// Faults by the six-round cycle.
const SIX_FAULTS: [Fault; 17] = [
    ("opening above 15, running", late_done, |r, t, _| Truck {
        opening: high_crusher(r),
        ..running(t.opening)
    }),
    ("opening above 15, stopped", late_done, |r, t, _| Truck {
        opening: high_crusher(r),
        ..with(t, State::Stopped(1))
    }),
    ("opening above 15, decided", late_done, |r, t, _| Truck {
        opening: high_crusher(r),
        ..with(t, State::Decided(6))
    }),
    ("estimate above 15, running", late_done, |r, t, _| Truck {
        estimate: high_crusher(r),
        ..running(t.opening)
    }),
    ("estimate above 15, stopped", late_done, |r, t, _| Truck {
        estimate: high_crusher(r),
        ..with(t, State::Stopped(1))
    }),
    ("estimate above 15, decided", late_done, |r, t, _| Truck {
        estimate: high_crusher(r),
        ..with(t, State::Decided(6))
    }),
    ("decided in round 0", any_done, |_, t, _| with(t, State::Decided(0))),
    ("decided in a round that is no multiple of 6", late_done, |r, t, done| {
        with(t, State::Decided(no_accept(r, done)))
    }),
    ("decided in a later round", any_done, |r, t, done| {
        with(t, State::Decided(later_accept(r, done)))
    }),
    ("stopped in round 0", any_done, |_, t, _| with(t, State::Stopped(0))),
    ("stopped in a later round", any_done, |r, t, done| {
        with(t, State::Stopped(done + 1 + r.pick(&[0, 0, 1, 2, 400, 65_000])))
    }),
    ("unwilling before round 1", |_| 0, |_, t, _| unwilling(running(t.opening))),
    ("unwilling before a bit round is done", willing_done, |_, t, _| unwilling(running(t.opening))),
    ("unwilling and stopped, bit rounds done", unwilling_done, |r, t, done| {
        unwilling(with(t, State::Stopped(edge_or_any(r, 1, done))))
    }),
    ("unwilling and stopped, none done", willing_done, |r, t, done| {
        unwilling(with(t, State::Stopped(edge_or_any(r, 1, done))))
    }),
    ("unwilling and decided, bit rounds done", unwilling_done, |r, t, done| {
        unwilling(with(t, State::Decided(6 * edge_or_any(r, 1, done / 6))))
    }),
    ("unwilling and decided, none done", willing_done, |r, t, done| {
        unwilling(with(t, State::Decided(6 * edge_or_any(r, 1, done / 6))))
    }),
];

/// Every condition of refusal 7 of a cycle, each broken alone: n, the rounds done, and
/// each fault of a truck at truck 0, at truck n - 1, at place n and at the
/// last place. Fewer than 400 rounds are done where the record is accepted.
pub fn broken_records(cycle: Cycle, rng: &mut Rng) -> Vec<Broken> {
    let faults: &[Fault] = match cycle {
        Cycle::TwoRound => &FAULTS,
        Cycle::SixRound => &SIX_FAULTS,
    };
    let mut list = Vec::new();
    for n in [0, 33, 64, 255] {
        let done = any_done(rng);
        let fleet = Fleet { n, ..good_record(cycle, rng, PLACES, done) };
        list.push(Broken { fleet, condition: "n out of range", place: None, refused: true });
    }
    for done in [401, 402, 65_535] {
        let n = rng.within(1, 32);
        let mut fleet = good_record(cycle, rng, n, 400);
        fleet.done = done;
        list.push(Broken { fleet, condition: "over 400 rounds done", place: None, refused: true });
    }
    for &(condition, done_for, fault) in faults {
        let n = rng.within(1, 31);
        for place in [0, n - 1, n, PLACES - 1] {
            let done = done_for(rng);
            let mut fleet = good_record(cycle, rng, n, done);
            if place >= n {
                // Nothing else is wrong above n.
                for truck in &mut fleet.trucks[n..] {
                    *truck = Truck::opened(0);
                }
            }
            let before = good_truck(&[cycle], rng, done);
            fleet.trucks[place] = fault(rng, before, done);
            list.push(Broken { fleet, condition, place: Some(place), refused: place < n });
        }
        let done = done_for(rng);
        let mut fleet = good_record(cycle, rng, PLACES, done);
        let before = good_truck(&[cycle], rng, done);
        fleet.trucks[PLACES - 1] = fault(rng, before, done);
        list.push(Broken { fleet, condition, place: Some(PLACES - 1), refused: true });
    }
    list
}

/// The bytes of a record that refusal 7 accepts, but for one place of which
/// one byte is changed so that it holds no truck.
#[derive(Clone, Debug)]
pub struct DamagedRecord {
    /// The record before.
    pub fleet: Fleet,
    pub bytes: [u8; RECORD],
    pub place: usize,
    pub how: &'static str,
    /// False where the place is at or above n.
    pub refused: bool,
}

/// A record of a cycle with fewer than 400 rounds done and a damaged byte.
pub fn damaged_record(cycle: Cycle, rng: &mut Rng) -> DamagedRecord {
    let n = rng.pick(&[1, 2, 5, 31, 32]);
    let done = any_done(rng);
    let mut fleet = good_record(cycle, rng, n, done);
    let any = rng.below(PLACES);
    let place = rng.pick(&[0, n - 1, n.min(PLACES - 1), PLACES - 1, any]);
    let at = place_of(place);
    let damage: fn(&mut Rng, &mut [u8]) -> &'static str = match rng.below(5) {
        0 => |r, truck| {
            truck[2] = r.within(2, 255) as u8;
            "a mark above 1"
        },
        1 => |r, truck| {
            truck[3] = r.within(3, 255) as u8;
            "heard above 2"
        },
        2 => |r, truck| {
            truck[4] = r.within(3, 255) as u8;
            "a state above 2"
        },
        3 => {
            // Nothing else is wrong with the running truck.
            fleet.trucks[place] = running(rng.below(16) as u8);
            |r, truck| {
                truck[5 + r.below(2)] = r.within(1, 255) as u8;
                "running with a round"
            }
        }
        _ => |r, truck| {
            truck[9] = r.pick(&[2, 3, 128, 255]);
            "willingness above 1"
        },
    };
    let mut bytes = record_bytes(&fleet);
    let how = damage(rng, &mut bytes[at..]);
    DamagedRecord { fleet, bytes, place, how, refused: place < n }
}
