//! A fleet record as the bytes that cross to C and Rust.

use crate::fleet::{Fleet, Heard, Sent, State, Truck, PLACES};

/// Bytes of one truck's place.
pub const PLACE: usize = 10;
/// Bytes of a record: n, the rounds done, and all places.
pub const RECORD: usize = 3 + PLACE * PLACES;

/// Where the place of a truck begins.
pub fn place_of(truck: usize) -> usize {
    3 + PLACE * truck
}

fn truck_bytes(truck: &Truck) -> [u8; PLACE] {
    let heard = match truck.heard {
        Heard::Nothing => 0,
        Heard::One => 1,
        Heard::Several => 2,
    };
    let (state, round) = match truck.state {
        State::Running => (0, 0),
        State::Stopped(round) => (1, round),
        State::Decided(round) => (2, round),
    };
    let [low, high] = round.to_le_bytes();
    let Sent { proposals, vetoes } = truck.sent;
    let mark = u8::from(truck.mark);
    let unwilling = u8::from(truck.unwilling);
    [truck.opening, truck.estimate, mark, heard, state, low, high, proposals, vetoes, unwilling]
}

/// The truck that the bytes of a place hold, where they hold one.
fn truck_of(place: &[u8; PLACE]) -> Option<Truck> {
    let [opening, estimate, mark, heard, state, low, high, proposals, vetoes, unwilling] = *place;
    if mark > 1 || unwilling > 1 {
        return None;
    }
    let heard = match heard {
        0 => Heard::Nothing,
        1 => Heard::One,
        2 => Heard::Several,
        _ => return None,
    };
    let round = u16::from_le_bytes([low, high]);
    let state = match state {
        0 if round == 0 => State::Running,
        1 => State::Stopped(round),
        2 => State::Decided(round),
        _ => return None,
    };
    let sent = Sent { proposals, vetoes };
    let [mark, unwilling] = [mark == 1, unwilling == 1];
    Some(Truck { opening, estimate, mark, heard, unwilling, state, sent })
}

/// A record as bytes, all places.
pub fn record_bytes(fleet: &Fleet) -> [u8; RECORD] {
    let mut bytes = [0; RECORD];
    bytes[0] = fleet.n;
    bytes[1..3].copy_from_slice(&fleet.done.to_le_bytes());
    put_trucks(&mut bytes, &fleet.trucks);
    bytes
}

fn put_trucks(bytes: &mut [u8; RECORD], trucks: &[Truck]) {
    for (place, truck) in bytes[3..].chunks_exact_mut(PLACE).zip(trucks) {
        place.copy_from_slice(&truck_bytes(truck));
    }
}

/// The record that bytes hold, where n is in range and each place below n holds
/// a truck. The other places are not read.
pub fn record_of(bytes: &[u8; RECORD]) -> Option<Fleet> {
    let n = usize::from(bytes[0]);
    if n == 0 || n > PLACES {
        return None;
    }
    let done = u16::from_le_bytes([bytes[1], bytes[2]]);
    let mut fleet = Fleet { n: bytes[0], done, ..Fleet::blank() };
    for (truck, place) in fleet.trucks[..n].iter_mut().zip(bytes[3..].chunks_exact(PLACE)) {
        *truck = truck_of(place.try_into().unwrap())?;
    }
    Some(fleet)
}

/// One step of a record lent as bytes, by either reading's step in either cycle.
/// Bytes that are no record are refused 7; a refused step changes no byte.
pub fn step(lent: &mut [u8], words: &[u32], step: impl Fn(&Fleet, &[u32]) -> (u8, Fleet)) -> u8 {
    let Some(bytes) = lent.first_chunk_mut::<RECORD>() else {
        return 7;
    };
    let Some(fleet) = record_of(bytes) else {
        return 7;
    };
    let (number, next) = step(&fleet, words);
    if number == 0 {
        bytes[1..3].copy_from_slice(&next.done.to_le_bytes());
        put_trucks(bytes, next.trucks_below_n());
    }
    number
}
