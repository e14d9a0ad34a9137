//! What starting, reading and writing are given. No cycle has a part in these calls: what is written are rounds of the
//! two-round one.

use super::chance::Rng;
use super::recordings::{bytes_of, openings, plain, Limits};
use crate::cycle::Cycle::TwoRound;
use crate::recording::{Header, Plain};

/// What a start is given, and the number it must answer.
#[derive(Clone, Debug)]
pub struct Starting {
    pub n: u64,
    pub openings: Vec<u8>,
    pub refusal: u8,
}

/// A start for 0 (accepted), 2 or 7.
pub fn starting(rng: &mut Rng, refusal: u8) -> Starting {
    let n = rng.pick(&[1, 2, 3, 8, 31, 32]);
    let mut openings = openings(rng, n);
    let mut count = n as u64;
    match refusal {
        2 => {
            count = rng.pick(&[0, 33, 34, 64, 255]);
            if rng.chance(128) {
                openings.resize(count as usize, 3);
            }
        }
        7 => spoil_openings(rng, &mut openings),
        _ => {}
    }
    Starting { n: count, openings, refusal }
}

/// One too few, too many, or one opening above 15 at either end.
fn spoil_openings(rng: &mut Rng, openings: &mut Vec<u8>) {
    let last = openings.len() - 1;
    let high = rng.pick(&[16, 17, 31, 128, 255]);
    match rng.below(5) {
        0 => drop(openings.pop()),
        1 => openings.push(0),
        2 => openings[0] = high,
        3 => openings[last] = high,
        _ => openings.clear(),
    }
}

/// What writing is given, and the number it must answer.
#[derive(Clone, Debug)]
pub struct Writing {
    pub n: u64,
    pub rounds: u64,
    pub openings: Vec<u8>,
    pub words: Vec<u32>,
    /// Length of the lent buffer.
    pub buffer: usize,
    pub refusal: u8,
}

/// A writing for 0 (accepted), 2, 3, 7, 8, 6 or 9. Often a later condition
/// holds too.
pub fn writing(rng: &mut Rng, limits: Limits, refusal: u8) -> Writing {
    let plain = loop {
        let plain = plain(TwoRound, rng, limits);
        if refusal != 6 || plain.rounds > 0 {
            break plain;
        }
    };
    let length = bytes_of(&plain).len();
    let Plain { n, rounds, mut openings, mut words } = plain;
    let (mut count, mut count_of_rounds) = (n as u64, rounds as u64);
    // Conditions come later in this order: 2, 3, 7, 8, 6, 9.
    let holds = |rng: &mut Rng, number: u8| {
        refusal == number || order(refusal) < order(number) && rng.chance(64)
    };
    let mut buffer = length + rng.pick(&[0, 0, 1, 7, 100]);
    if holds(rng, 9) {
        buffer = if rng.chance(128) { length - 1 } else { rng.below(length) };
    }
    if rounds > 0 && holds(rng, 6) {
        let (round, truck) = (rng.pick(&[0, rounds - 1]), rng.pick(&[0, n - 1]));
        words[round * (3 + n) + 3 + truck] |= 1 << truck;
        for _ in 0..rng.within(0, 4) {
            let (round, truck) = (rng.below(rounds), rng.below(n));
            words[round * (3 + n) + 3 + truck] |= 1 << truck;
        }
    }
    if holds(rng, 8) {
        spoil_words(rng, n, &mut words);
    }
    if holds(rng, 7) {
        spoil_openings(rng, &mut openings);
    }
    if holds(rng, 3) {
        count_of_rounds = rng.pick(&[401, 402, 1023, 1024, 65_535]);
    }
    if refusal == 2 {
        count = rng.pick(&[0, 33, 64, 255]);
    }
    Writing { n: count, rounds: count_of_rounds, openings, words, buffer, refusal }
}

/// Where a number stands in the order of writing; 0 comes after all.
fn order(refusal: u8) -> usize {
    [2, 3, 7, 8, 6, 9].iter().position(|r| *r == refusal).unwrap_or(6)
}

/// Makes refusal 8 hold: too few or too many words, or a high bit.
fn spoil_words(rng: &mut Rng, n: usize, words: &mut Vec<u32>) {
    let kind = match (words.is_empty(), n) {
        (true, _) => rng.within(0, 1),
        (false, 32) => rng.within(0, 2),
        _ => rng.within(0, 5),
    };
    match kind {
        0 => words.push(0),
        1 => words.extend(vec![0; 3 + n]),
        2 => drop(words.pop()),
        _ => {
            let any = rng.below(words.len());
            let at = rng.pick(&[0, any, words.len() - 1]);
            words[at] |= high_bit(rng, n);
        }
    }
}

/// A bit at or above n, for n below 32.
pub(super) fn high_bit(rng: &mut Rng, n: usize) -> u32 {
    let any = rng.within(n, 31);
    1 << rng.pick(&[n, any, 31])
}

/// Lengths of the two lent buffers of a reading: exact, longer, or too short.
pub fn reading_buffers(rng: &mut Rng, header: Header) -> (usize, usize) {
    let mut length = |exact: usize| match rng.below(6) {
        0..=2 => exact,
        3 => exact + rng.within(1, 9),
        4 => exact.saturating_sub(1),
        _ => rng.below(exact + 1),
    };
    (length(header.n), length(header.total_words()))
}
