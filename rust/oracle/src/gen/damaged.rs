//! Recordings with one fault, for refusals 1 to 6. These come before any round is played, so that the cycle of the recording
//! that is damaged does not matter: it is the two-round one.

use super::chance::Rng;
use super::recordings::{self, bytes_of, Limits};
use crate::cycle::Cycle::TwoRound;
use crate::recording::{bit, pack, set_bit, Header, Plain};

/// A recording with the refusal it must meet.
#[derive(Clone, Debug)]
pub struct Damaged {
    pub bytes: Vec<u8>,
    pub refusal: u8,
    pub how: &'static str,
}

/// A recording damaged for refusal 1 to 6. Often a later condition holds too.
pub fn damaged(rng: &mut Rng, limits: Limits, refusal: u8) -> Damaged {
    let (bytes, how) = match refusal {
        1 => too_short(rng),
        2 => bad_count_of_trucks(rng, limits),
        3 => bad_count_of_rounds(rng),
        4 => bad_length(rng, limits),
        5 => bad_end_bit(rng, limits),
        _ => own_bit(rng, limits),
    };
    Damaged { bytes, refusal, how }
}

fn too_short(rng: &mut Rng) -> (Vec<u8>, &'static str) {
    if rng.chance(64) {
        (vec![], "no byte")
    } else {
        (vec![rng.next_u64() as u8], "one byte")
    }
}

fn random_bytes(rng: &mut Rng, count: usize) -> Vec<u8> {
    (0..count).map(|_| rng.next_u64() as u8).collect()
}

/// The first two bytes for any n below 64 and R below 1,024.
fn header_bytes(n: usize, rounds: usize) -> [u8; 2] {
    [(n << 2 | rounds >> 8) as u8, rounds as u8]
}

fn bad_count_of_trucks(rng: &mut Rng, limits: Limits) -> (Vec<u8>, &'static str) {
    let n = rng.pick(&[0, 0, 33, 33, 34, 63]);
    match rng.below(3) {
        0 => {
            let rounds = rng.below(3);
            let mut bytes = vec![0; Header { n, rounds }.total_bytes()];
            bytes[..2].copy_from_slice(&header_bytes(n, rounds));
            (bytes, "n out of range, length right for it")
        }
        1 => {
            let mut bytes = recordings::recording(TwoRound, rng, limits);
            bytes[0] = bytes[0] & 3 | (n << 2) as u8;
            (bytes, "n out of range, a body of another n")
        }
        _ => {
            let rounds = rng.within(401, 1023);
            let mut bytes = header_bytes(n, rounds).to_vec();
            let tail = rng.below(40);
            bytes.extend(random_bytes(rng, tail));
            (bytes, "n and R out of range")
        }
    }
}

fn bad_count_of_rounds(rng: &mut Rng) -> (Vec<u8>, &'static str) {
    let n = rng.pick(&[1, 1, 2, 5, 32]);
    let rounds = match rng.below(3) {
        0 => 401,
        1 => 1023,
        _ => rng.within(401, 1023),
    };
    if n < 5 && rng.chance(128) {
        let header = Header { n, rounds };
        let bytes = pack(header, &vec![1; n], &vec![0; header.total_words()]);
        (bytes, "R out of range, length right for it")
    } else {
        let mut bytes = header_bytes(n, rounds).to_vec();
        let tail = rng.below(300);
        bytes.extend(random_bytes(rng, tail));
        (bytes, "R out of range, wrong length")
    }
}

fn bad_length(rng: &mut Rng, limits: Limits) -> (Vec<u8>, &'static str) {
    let mut bytes = recordings::recording(TwoRound, rng, limits);
    if rng.chance(64) {
        // Own bits and leftover bits are 1 too.
        for byte in bytes.iter_mut().skip(2) {
            *byte = 255;
        }
    }
    match rng.below(5) {
        0 => {
            bytes.pop();
            (bytes, "the last byte cut off")
        }
        1 => {
            bytes.truncate(rng.within(2, bytes.len() - 1));
            (bytes, "the end cut off")
        }
        2 => {
            bytes.push(0);
            (bytes, "a zero byte added")
        }
        3 => {
            let more = rng.within(1, 9);
            bytes.extend(random_bytes(rng, more));
            (bytes, "bytes added")
        }
        _ => {
            bytes.resize(rng.within(56_019, 56_030), 0);
            (bytes, "longer than any")
        }
    }
}

/// A plain form whose recording has leftover bits.
fn plain_with_leftover(rng: &mut Rng, limits: Limits) -> Plain {
    loop {
        let plain = recordings::plain(TwoRound, rng, limits);
        let header = Header { n: plain.n, rounds: plain.rounds };
        if header.total_bits() % 8 != 0 {
            return plain;
        }
    }
}

fn bad_end_bit(rng: &mut Rng, limits: Limits) -> (Vec<u8>, &'static str) {
    let plain = plain_with_leftover(rng, limits);
    let header = Header { n: plain.n, rounds: plain.rounds };
    let mut bytes = bytes_of(&plain);
    if plain.rounds > 0 && rng.chance(64) {
        set_own_bit(rng, &mut bytes, header);
    }
    let places = header.total_bits()..8 * bytes.len();
    let (place, how) = match rng.below(3) {
        0 => (places.start, "the first leftover bit"),
        1 => (places.end - 1, "the last leftover bit"),
        _ => (rng.within(places.start, places.end - 1), "some leftover bit"),
    };
    set_bit(&mut bytes, place);
    (bytes, how)
}

fn own_bit(rng: &mut Rng, limits: Limits) -> (Vec<u8>, &'static str) {
    loop {
        let plain = recordings::plain(TwoRound, rng, limits);
        if plain.rounds > 0 {
            let header = Header { n: plain.n, rounds: plain.rounds };
            let mut bytes = bytes_of(&plain);
            let mut how = set_own_bit(rng, &mut bytes, header);
            if rng.chance(128) {
                how = "several own bits";
                for _ in 0..rng.within(1, 6) {
                    let (index, truck) = (rng.below(header.rounds), rng.below(header.n));
                    set_bit(&mut bytes, header.loss_place(index, truck, truck));
                }
            }
            return (bytes, how);
        }
    }
}

/// Sets one own loss bit: first, last or any round and truck.
fn set_own_bit(rng: &mut Rng, bytes: &mut [u8], header: Header) -> &'static str {
    let (last_round, last_truck) = (header.rounds - 1, header.n - 1);
    let (index, truck, how) = match rng.below(5) {
        0 => (0, 0, "own bit, first round, first truck"),
        1 => (0, last_truck, "own bit, first round, last truck"),
        2 => (last_round, 0, "own bit, last round, first truck"),
        3 => (last_round, last_truck, "own bit, last round, last truck"),
        _ => (rng.within(0, last_round), rng.within(0, last_truck), "own bit somewhere"),
    };
    let place = header.loss_place(index, truck, truck);
    assert!(!bit(bytes, place));
    set_bit(bytes, place);
    how
}
