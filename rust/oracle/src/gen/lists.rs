//! Lists of steps, refused ones included.

use super::calls::high_bit;
use super::chance::Rng;
use super::recordings::{habits, plain, plain_of_size, round, Limits};
use crate::cycle::Cycle;
use crate::lists::List;
use crate::recording::{Header, Plain};

/// A round that a step of either cycle refuses, with the number for it.
pub fn bad_round(rng: &mut Rng, n: usize) -> (Vec<u32>, u8) {
    let habits = habits(rng);
    let mut words = round(Cycle::TwoRound, rng, n, 1, &habits);
    let mut kind = rng.below(8);
    if n == 32 && (3..=5).contains(&kind) {
        kind = 6;
    }
    let any = rng.below(n);
    let own = rng.pick(&[0, any, n - 1]);
    match kind {
        0 => drop(words.pop()),
        1 => words.push(0),
        2 => words.truncate(rng.below(3 + n)),
        3..=5 => {
            let at = rng.pick(&[0, 1, 2, 3, 2 + n]);
            words[at] |= high_bit(rng, n);
            if kind == 5 {
                words[3 + own] |= 1 << own;
            }
        }
        _ => {
            words[3 + own] |= 1 << own;
            for _ in 0..rng.within(0, 3) {
                let other = rng.below(n);
                words[3 + other] |= 1 << other;
            }
            return (words, 6);
        }
    }
    (words, 8)
}

/// The rounds of a plain form as steps, with refused ones among them.
pub fn list_around(rng: &mut Rng, plain: &Plain, bad: u32) -> List {
    let mut steps = Vec::new();
    for round in 1..=plain.rounds {
        while rng.chance(bad) {
            steps.push(bad_round(rng, plain.n).0);
        }
        steps.push(plain.round(round).to_vec());
    }
    while rng.chance(bad) {
        steps.push(bad_round(rng, plain.n).0);
    }
    List { n: plain.n as u64, openings: plain.openings.clone(), steps }
}

/// A random list of steps, with the marks of a cycle.
pub fn list(cycle: Cycle, rng: &mut Rng, limits: Limits) -> List {
    let plain = plain(cycle, rng, limits);
    let bad = rng.pick(&[0, 32, 100]);
    list_around(rng, &plain, bad)
}

/// A list with more than 400 rounds that could be taken, and bad ones after.
pub fn long_list(cycle: Cycle, rng: &mut Rng, trucks: usize) -> List {
    let rounds = rng.within(401, 410);
    let size = Header { n: rng.within(1, trucks), rounds };
    let plain = plain_of_size(cycle, rng, size);
    let mut list = list_around(rng, &plain, 16);
    for _ in 0..4 {
        list.steps.push(bad_round(rng, plain.n).0);
    }
    list
}
