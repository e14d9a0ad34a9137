//! Starts and steps compared with the independent reading, by any calls that take and leave a record as bytes: the exported ones, and others that have to do
//! the same.

use std::collections::{BTreeMap, BTreeSet};

use oracle::bytes::{self, place_of, record_bytes, record_of, RECORD};
use oracle::fleet::record_refused;
use oracle::gen::{self, Rng, FULL, SMALL};
use oracle::lists::List;
use oracle::{Cycle, Fleet};

use crate::same::FILL;
use crate::{own_loss_number, times};

/// Calls that start a record and step it.
#[derive(Clone, Copy)]
pub struct Calls {
    pub start: fn(u32, &[u8], &mut [u8]) -> u32,
    pub step: fn(Cycle, &mut [u8], &[u32]) -> u32,
}

/// The exported ones.
pub const EXPORTED: Calls = Calls { start: crate::start, step: crate::step };

/// How often each number was answered by the steps of each cycle.
type Met = BTreeMap<(Cycle, u32), usize>;

/// Each of these numbers was answered so often by the steps of each cycle.
fn often(met: &Met, numbers: &[u32], least: usize) {
    for cycle in Cycle::ALL {
        for number in numbers {
            assert!(met.get(&(cycle, *number)) > Some(&least), "{met:?}");
        }
    }
}

/// A round after those that a record has done, also where its number of trucks is out of range.
pub fn a_round(cycle: Cycle, rng: &mut Rng, f: &Fleet) -> Vec<u32> {
    let habits = gen::habits(rng);
    let n = usize::from(f.n.clamp(1, 32));
    gen::round(cycle, rng, n, usize::from(f.done) + 1, &habits)
}

/// A list of steps: mostly a tiny one, now and then one of any size or of more than 400 rounds.
fn a_list(cycle: Cycle, rng: &mut Rng, k: usize) -> List {
    match k {
        k if k % 1000 == 0 => gen::long_list(cycle, rng, 5),
        k if k % 400 == 0 => gen::list(cycle, rng, FULL),
        k if k % 20 == 0 => gen::list(cycle, rng, SMALL),
        _ => gen::list(cycle, rng, gen::tiny(cycle)),
    }
}

// One call

impl Calls {
    /// A start that is accepted.
    fn same_start(&self, list: &List) -> Fleet {
        let (number, fleet) = oracle::start(list.n, &list.openings);
        let mut d = [FILL; RECORD];
        assert_eq!((number, (self.start)(list.n as u32, &list.openings, &mut d)), (0, 0));
        assert_eq!(d, record_bytes(&fleet));
        fleet
    }

    /// One step of a record. The number answered and the record that it leaves.
    pub fn same_step(&self, cycle: Cycle, f: &Fleet, words: &[u32]) -> (u32, Fleet) {
        let mut d = record_bytes(f);
        let number = (self.step)(cycle, &mut d, words);
        let (expected, next) = oracle::step(cycle, f, words);
        let own_bit = oracle::step_own_bit(cycle, f, words);
        assert_eq!(own_bit.is_some(), expected == 6);
        if own_bit.is_some() {
            let own_loss = crate::round_own_loss(u32::from(f.n), u32::from(f.done) + 1, words);
            assert_eq!(own_loss, own_loss_number(own_bit));
        }
        assert_eq!(number, u32::from(expected));
        assert_eq!(d, record_bytes(&next));
        (number, next)
    }

    /// One step of any bytes. The number answered and the bytes that it leaves.
    fn same_bytes(&self, cycle: Cycle, lent: &[u8], words: &[u32]) -> (u32, Vec<u8>) {
        let (mut found, mut expected) = (lent.to_vec(), lent.to_vec());
        let number = (self.step)(cycle, &mut found, words);
        let step = |f: &Fleet, w: &[u32]| oracle::step(cycle, f, w);
        assert_eq!(number, u32::from(bytes::step(&mut expected, words, step)));
        assert_eq!(found, expected);
        assert!(number == 0 || found == lent);
        (number, found)
    }
}

// Many, from a seed

impl Calls {
    /// Starts, accepted and not, into a buffer of a record's length and into one that is too short.
    pub fn starts(&self, seed: u64, count: usize) {
        let mut rng = Rng::new(seed);
        for k in 0..times(count) {
            let s = gen::starting(&mut rng, [0, 2, 7][k % 3]);
            let mut d = [FILL; RECORD];
            let n = u32::try_from(s.n).unwrap_or(u32::MAX);
            let number = (self.start)(n, &s.openings, &mut d);
            assert_eq!(number, u32::from(s.refusal));
            let expected = oracle::start(s.n, &s.openings);
            if number == 0 {
                assert_eq!(d, record_bytes(&expected.1));
            } else {
                assert_eq!(d, [FILL; RECORD]);
            }
            let mut short = [FILL; RECORD - 1];
            let refused = (self.start)(n, &s.openings, &mut short);
            assert_eq!(refused, if number == 0 { 9 } else { number });
            assert_eq!(short, [FILL; RECORD - 1]);
        }
    }

    /// Lists of steps in one cycle, refused ones included. `after` is told each list with the record that it leaves.
    pub fn lists_of_steps(
        &self,
        cycle: Cycle,
        seed: u64,
        count: usize,
        mut after: impl FnMut(&List, &Fleet),
    ) {
        let mut rng = Rng::new(seed);
        let mut full = 0;
        for k in 0..times(count) {
            let list = a_list(cycle, &mut rng, k);
            let mut fleet = self.same_start(&list);
            for words in &list.steps {
                fleet = self.same_step(cycle, &fleet, words).1;
            }
            full += usize::from(fleet.done == 400);
            after(&list, &fleet);
        }
        assert!(full > 0);
    }

    /// Each step in a cycle of its own, seldom or often another than before. Both cycles take such records and refuse them.
    pub fn lists_that_change_the_cycle(&self, seed: u64, count: usize) {
        let mut rng = Rng::new(seed);
        let mut met = Met::new();
        for k in 0..times(count) {
            let list = a_list(Cycle::SixRound, &mut rng, k);
            let mut fleet = self.same_start(&list);
            let change = rng.pick(&[8, 64, 256]);
            let mut cycle = rng.pick(&Cycle::ALL);
            for words in &list.steps {
                if rng.chance(change) {
                    cycle = rng.pick(&Cycle::ALL);
                }
                let number;
                (number, fleet) = self.same_step(cycle, &fleet, words);
                *met.entry((cycle, number)).or_insert(0) += 1;
            }
        }
        often(&met, &[0, 6, 7, 8], 500);
    }

    /// Records by refusal 7 of a cycle, each condition broken `few` times and `many` accepted ones, handed to the steps of both cycles. The conditions that were
    /// broken.
    pub fn records_handed_in(
        &self,
        made: Cycle,
        seed: u64,
        few: usize,
        many: usize,
    ) -> BTreeSet<&'static str> {
        let mut rng = Rng::new(seed);
        let mut met = Met::new();
        let mut conditions = BTreeSet::new();
        let mut hand_in = |rng: &mut Rng, f: &Fleet| {
            for cycle in Cycle::ALL {
                let (number, _) = self.same_step(cycle, f, &a_round(cycle, rng, f));
                *met.entry((cycle, number)).or_insert(0) += 1;
            }
        };
        for _ in 0..times(few) {
            for broken in gen::broken_records(made, &mut rng) {
                let f = broken.fleet;
                assert_eq!(record_refused(made, &f), broken.refused, "{}", broken.condition);
                conditions.insert(broken.condition);
                hand_in(&mut rng, &f);
            }
        }
        for _ in 0..times(many) {
            let f = gen::record(made, &mut rng);
            hand_in(&mut rng, &f);
            let (bad, _) = gen::bad_round(&mut rng, usize::from(f.n));
            self.same_step(made, &f, &bad);
        }
        often(&met, &[0, 7, 14], 50);
        conditions
    }

    /// Records of which one place holds no truck, and bytes too few for a record.
    pub fn damaged_record_bytes(&self, cycle: Cycle, seed: u64, count: usize) {
        let mut rng = Rng::new(seed);
        for _ in 0..times(count) {
            let damaged = gen::damaged_record(cycle, &mut rng);
            let words = a_round(cycle, &mut rng, &damaged.fleet);
            let (number, left) = self.same_bytes(cycle, &damaged.bytes, &words);
            assert_eq!(number, if damaged.refused { 7 } else { 0 }, "{}", damaged.how);
            let above = place_of(usize::from(damaged.fleet.n));
            assert_eq!(left[above..], damaged.bytes[above..]);
        }
        for length in 0..RECORD {
            assert_eq!(self.same_bytes(cycle, &vec![1; length], &[0; 4]).0, 7);
        }
    }

    /// Bytes of an accepted record of either cycle, some of them changed at random; by either cycle's step.
    pub fn changed_record_bytes(&self, seed: u64, count: usize) {
        let mut rng = Rng::new(seed);
        let (mut whole, mut damaged) = (Met::new(), Met::new());
        for _ in 0..times(count) {
            let [made, cycle] = [rng.pick(&Cycle::ALL), rng.pick(&Cycle::ALL)];
            let f = gen::record(made, &mut rng);
            let words = a_round(cycle, &mut rng, &f);
            let mut d = record_bytes(&f);
            for _ in 0..rng.within(1, 3) {
                let near = rng.below(place_of(usize::from(f.n)));
                let value = rng.next_u64() as u8;
                d[near] = rng.pick(&[0, 1, 2, 3, 6, 12, value]);
            }
            let (number, _) = self.same_bytes(cycle, &d, &words);
            let met = if record_of(&d).is_some() { &mut whole } else { &mut damaged };
            *met.entry((cycle, number)).or_insert(0) += 1;
        }
        often(&whole, &[0, 7], 500);
        often(&damaged, &[7], 500);
    }

    /// Any bytes in the places n and above and behind a record: they are not read, and stay.
    pub fn any_bytes_above_n(&self, seed: u64, count: usize) {
        let mut rng = Rng::new(seed);
        let mut met = Met::new();
        for _ in 0..times(count) {
            let cycle = rng.pick(&Cycle::ALL);
            let f = gen::record(cycle, &mut rng);
            let words = a_round(cycle, &mut rng, &f);
            let above = place_of(usize::from(f.n));
            let mut d = record_bytes(&f).to_vec();
            d.resize(RECORD + rng.below(12), 0);
            d[above..].fill_with(|| rng.next_u64() as u8);
            let (number, left) = self.same_bytes(cycle, &d, &words);
            assert_eq!(left[above..], d[above..]);
            *met.entry((cycle, number)).or_insert(0) += 1;
        }
        often(&met, &[0], count / 4);
    }
}
