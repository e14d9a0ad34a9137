//! Recordings that are accepted: of any kind, with marks that are asked for, and calm ones.

use super::chance::{low_bits, Rng};
use crate::cycle::{Cycle, RoundKind};
use crate::fleet::Fleet;
use crate::recording::{write, Header, Plain};
use crate::steps::{follow, radio, start};

/// The most trucks and rounds of what is made.
#[derive(Clone, Copy, Debug)]
pub struct Limits {
    pub trucks: usize,
    pub rounds: usize,
}

/// Small enough for many thousands of plays.
pub const TINY: Limits = Limits { trucks: 4, rounds: 10 };
pub const SMALL: Limits = Limits { trucks: 9, rounds: 30 };
/// As small, but with rounds for some cycles of six.
pub const TINY_SIX: Limits = Limits { trucks: 4, rounds: 26 };
/// Up to the largest recording.
pub const FULL: Limits = Limits { trucks: 32, rounds: 400 };

/// Tiny, with rounds for some cycles.
pub fn tiny(cycle: Cycle) -> Limits {
    match cycle {
        Cycle::TwoRound => TINY,
        Cycle::SixRound => TINY_SIX,
    }
}

/// Numbers of trucks and rounds within limits, edges often.
pub fn size(rng: &mut Rng, limits: Limits) -> Header {
    let n = match rng.below(8) {
        0 | 1 => rng.within(1, limits.trucks.min(3)),
        2 => limits.trucks,
        _ => rng.within(1, limits.trucks),
    };
    let rounds = match rng.below(16) {
        0 => 0,
        1 => limits.rounds,
        2..=9 => rng.within(0, limits.rounds.min(12)),
        _ => rng.within(0, limits.rounds),
    };
    Header { n, rounds }
}

/// Openings: all equal, few values, neighbours, or any.
pub fn openings(rng: &mut Rng, n: usize) -> Vec<u8> {
    let first = rng.below(16) as u8;
    let second = rng.below(16) as u8;
    let kind = rng.below(8);
    (0..n)
        .map(|_| match kind {
            0 => first,
            1..=3 => rng.pick(&[first, second]),
            4 => rng.pick(&[first, first, first, second]),
            _ => rng.below(16) as u8,
        })
        .collect()
}

/// How often bits are set, in 256.
#[derive(Clone, Copy, Debug)]
pub struct Habits {
    pub stop: u32,
    pub active: u32,
    /// Marks in proposal rounds and in prepare. A fourth as many in bit rounds.
    pub mark: u32,
    /// Marks in veto rounds and in accept: they hold single trucks back.
    pub veto_mark: u32,
    pub loss: u32,
    /// Each round may split the trucks in two groups that don't hear each other.
    pub split: u32,
}

/// Habits of a random recording.
pub fn habits(rng: &mut Rng) -> Habits {
    Habits {
        stop: rng.pick(&[0, 0, 0, 1, 1, 4, 20]),
        active: rng.pick(&[256, 256, 256, 200, 128, 64, 16]),
        mark: rng.pick(&[0, 0, 0, 2, 16, 64, 128]),
        veto_mark: rng.pick(&[0, 0, 2, 16, 64, 128]),
        loss: rng.pick(&[0, 0, 2, 8, 32, 64, 128, 200, 256]),
        split: rng.pick(&[0, 0, 0, 32, 128, 256]),
    }
}

/// Habits that leave many rounds heard by most, with a mark now and then.
pub fn mild_habits(rng: &mut Rng) -> Habits {
    Habits {
        stop: rng.pick(&[0, 0, 1, 4, 12]),
        active: rng.pick(&[256, 256, 200, 128, 48]),
        mark: rng.pick(&[0, 0, 0, 4, 24, 80]),
        veto_mark: rng.pick(&[0, 4, 32, 128, 180]),
        loss: rng.pick(&[0, 4, 16, 48, 80, 112, 140]),
        split: rng.pick(&[0, 0, 16, 64, 200]),
    }
}

/// Round `number` of a cycle in plain form; refusals 8 and 6 accept it.
pub fn round(cycle: Cycle, rng: &mut Rng, n: usize, number: usize, habits: &Habits) -> Vec<u32> {
    let mark = match cycle.round_kind(number as u16) {
        RoundKind::Proposals | RoundKind::Prepare => habits.mark,
        RoundKind::Vetoes | RoundKind::Accept => habits.veto_mark,
        RoundKind::Bit(_) => habits.mark / 4,
    };
    let mut words = vec![rng.bits(n, habits.stop), rng.bits(n, habits.active), rng.bits(n, mark)];
    let split = rng.chance(habits.split);
    let group = rng.bits(n, 128);
    for i in 0..n {
        let mut row = rng.bits(n, habits.loss);
        if split {
            let in_group = group >> i & 1 == 1;
            row |= if in_group { low_bits(n) & !group } else { group };
        }
        words.push(row & !(1 << i));
    }
    words
}

/// Builds a plain form round by round; `make` sees the record so far.
pub fn build(
    cycle: Cycle,
    rng: &mut Rng,
    size: Header,
    openings: Vec<u8>,
    mut make: impl FnMut(&mut Rng, &Fleet) -> Vec<u32>,
) -> Plain {
    let (_, mut fleet) = start(size.n as u64, &openings);
    let mut words = Vec::new();
    for _ in 0..size.rounds {
        let round = make(rng, &fleet);
        fleet = follow(cycle, &fleet, &round);
        words.extend(round);
    }
    Plain { n: size.n, rounds: size.rounds, openings, words }
}

/// The recording of a plain form that is known to be accepted.
pub fn bytes_of(plain: &Plain) -> Vec<u8> {
    write(plain.n as u64, plain.rounds as u64, &plain.openings, &plain.words).unwrap()
}

/// A random accepted recording in plain form, with the marks of a cycle. Every
/// fourth one changes its habits from round to round.
pub fn plain(cycle: Cycle, rng: &mut Rng, limits: Limits) -> Plain {
    let size = size(rng, limits);
    plain_of_size(cycle, rng, size)
}

/// The same, of a given size.
pub fn plain_of_size(cycle: Cycle, rng: &mut Rng, size: Header) -> Plain {
    let openings = openings(rng, size.n);
    let changing = rng.chance(64);
    let mut habits_now = habits(rng);
    let mut words = Vec::new();
    for number in 1..=size.rounds {
        if changing && rng.chance(96) {
            habits_now = habits(rng);
        }
        words.extend(round(cycle, rng, size.n, number, &habits_now));
    }
    Plain { n: size.n, rounds: size.rounds, openings, words }
}

/// A random accepted recording, with the marks of a cycle.
pub fn recording(cycle: Cycle, rng: &mut Rng, limits: Limits) -> Vec<u8> {
    bytes_of(&plain(cycle, rng, limits))
}

/// A recording of the largest size.
pub fn largest(cycle: Cycle, rng: &mut Rng) -> Vec<u8> {
    bytes_of(&plain_of_size(cycle, rng, Header { n: 32, rounds: 400 }))
}

/// Whether a truck that hears so many of so many messages, above 0, in a round
/// with this number is to have a mark.
pub type Asked = fn(number: usize, heard: usize, messages: usize) -> bool;

/// Nothing is asked.
pub const NONE: Asked = |_, _, _| false;
/// What majority complete marks ask.
pub const MAJORITY: Asked = |_, heard, messages| 2 * heard <= messages;
/// What zero complete marks ask.
pub const ZERO: Asked = |_, heard, _| heard == 0;
/// What mixed marks ask: majority complete in odd rounds, zero complete in even ones.
pub const MIXED: Asked = |number, heard, messages| {
    let asked = if number % 2 == 1 { MAJORITY } else { ZERO };
    asked(number, heard, messages)
};
/// Majority complete in odd rounds, and nothing in even ones.
pub const ODD_MAJORITY: Asked =
    |number, heard, messages| number % 2 == 1 && MAJORITY(number, heard, messages);

/// A plain form with the marks asked for in every round, and marks that nothing
/// asks for among them.
pub fn with_marks(cycle: Cycle, rng: &mut Rng, limits: Limits, asked: Asked) -> Plain {
    let size = size(rng, limits);
    let openings = openings(rng, size.n);
    let habits = mild_habits(rng);
    build(cycle, rng, size, openings, |rng, fleet| {
        let mut words = round(cycle, rng, size.n, fleet.done as usize + 1, &habits);
        words[2] |= marks_asked(cycle, fleet, &words, asked);
        words
    })
}

/// The marks asked for in the next round.
fn marks_asked(cycle: Cycle, fleet: &Fleet, words: &[u32], asked: Asked) -> u32 {
    let radio = radio(cycle, fleet, words);
    let messages = radio.messages();
    let mut marks = 0;
    for i in radio.running_trucks() {
        if messages > 0 && asked(fleet.done as usize + 1, radio.heard(i), messages) {
            marks |= 1 << i;
        }
    }
    marks
}

/// A plain form that is calm from `s` with `b`.
#[derive(Clone, Debug)]
pub struct Calm {
    pub plain: Plain,
    pub s: u64,
    pub b: u64,
}

/// Makes a recording calm from some S with some b, with the marks asked for in
/// every round. Often no truck decides before S. With b of 0 every truck stops in
/// the first round for estimates from S on.
pub fn calm(cycle: Cycle, rng: &mut Rng, limits: Limits, asked: Asked) -> Calm {
    let span = cycle.calm_span() as usize;
    let n = rng.within(1, limits.trucks);
    let size = Header { n, rounds: rng.within(span + 1, limits.rounds.max(span + 1)) };
    let s = match rng.below(4) {
        0 => 1,
        1 => size.rounds - span,
        _ => rng.within(1, size.rounds - span),
    };
    let b = match rng.below(12) {
        0 => 0,
        1..=3 => 1,
        4 => 33,
        5 => 200,
        _ => rng.within(1, n) as u64,
    };
    let openings = openings(rng, n);
    let before = habits(rng);
    let within = mild_habits(rng);
    let hold_back = rng.chance(160);
    let plain = build(cycle, rng, size, openings, |rng, fleet| {
        let number = fleet.done as usize + 1;
        if s <= number && number <= s + span {
            return calm_round(cycle, rng, fleet, &within, b, asked);
        }
        let mut words = round(cycle, rng, n, number, &before);
        if hold_back && number < s {
            words[0] = 0;
            if number % cycle.rounds() as usize == 0 {
                words[2] = low_bits(n);
            }
        }
        words[2] |= marks_asked(cycle, fleet, &words, asked);
        words
    });
    Calm { plain, s: s as u64, b }
}

fn calm_round(
    cycle: Cycle,
    rng: &mut Rng,
    fleet: &Fleet,
    habits: &Habits,
    b: u64,
    asked: Asked,
) -> Vec<u32> {
    let n = fleet.n as usize;
    let mut words = round(cycle, rng, n, fleet.done as usize + 1, habits);
    let begun = radio(cycle, fleet, &words);
    let running = begun.running_trucks();
    if begun.is_proposal() && !running.is_empty() {
        if b == 0 {
            words[0] = low_bits(n);
        } else {
            let most = (running.len() as u64).min(b) as usize;
            let wanted = rng.within(1, most);
            let mut chosen = 0u32;
            while (chosen.count_ones() as usize) < wanted {
                chosen |= 1 << rng.pick(&running);
            }
            let running_bits = running.iter().fold(0, |bits, i| bits | 1 << i);
            words[1] = words[1] & !running_bits | chosen;
        }
    }
    let lossy = radio(cycle, fleet, &words);
    let senders = lossy.messages() as u64;
    if 1 <= senders && senders <= b {
        for i in lossy.running_trucks() {
            for j in 0..n {
                if lossy.sends[j] {
                    words[3 + i] &= !(1 << j);
                }
            }
        }
    }
    let heard = radio(cycle, fleet, &words);
    for i in heard.running_trucks() {
        if heard.missed(i) == 0 {
            words[2] &= !(1 << i);
        }
    }
    words[2] |= marks_asked(cycle, fleet, &words, asked);
    words
}
