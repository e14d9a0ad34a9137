//! The opening crusher, by exact fractions over whole numbers.

use std::cmp::Ordering;

/// The most roads.
pub const MAX_ROADS: usize = 16;
/// The most seconds of a last run.
pub const MAX_SECONDS: u16 = 3_600;

/// An exact travel time: `product / metres` seconds.
#[derive(Clone, Copy, Debug)]
pub struct Time {
    pub product: u64,
    pub metres: u64,
}

/// The exact time of a road: 0 seconds at length 0, idle or not, and nothing
/// where it is idle and longer.
pub fn exact_time(length: u16, metres: u16, seconds: u16) -> Option<Time> {
    if length == 0 {
        return Some(Time { product: 0, metres: 1 });
    }
    if metres == 0 {
        return None;
    }
    Some(Time { product: length as u64 * seconds as u64, metres: metres as u64 })
}

/// Orders two exact times by their cross products.
pub fn compare(a: Time, b: Time) -> Ordering {
    (a.product * b.metres).cmp(&(b.product * a.metres))
}

/// The estimate in binary64: 0 at length 0, else one product and one division.
pub fn float_time(length: u16, metres: u16, seconds: u16) -> Option<f64> {
    if length == 0 {
        return Some(0.0);
    }
    if metres == 0 {
        return None;
    }
    Some(length as f64 * seconds as f64 / metres as f64)
}

/// The opening crusher: the road of least exact time, the lowest on a tie.
/// Refusals 10, 11, 12, 13.
pub fn opening(lengths: &[u16], metres: &[u16], seconds: &[u16]) -> Result<u8, u8> {
    let roads = lengths.len();
    if roads == 0 || roads > MAX_ROADS || metres.len() != roads || seconds.len() != roads {
        return Err(10);
    }
    if seconds.iter().any(|s| *s > MAX_SECONDS) {
        return Err(11);
    }
    if (0..roads).any(|k| metres[k] > 0 && seconds[k] == 0) {
        return Err(12);
    }
    let mut best: Option<(usize, Time)> = None;
    for k in 0..roads {
        let Some(time) = exact_time(lengths[k], metres[k], seconds[k]) else {
            continue;
        };
        match best {
            Some((_, least)) if compare(time, least) != Ordering::Less => {}
            _ => best = Some((k, time)),
        }
    }
    match best {
        Some((k, _)) => Ok(k as u8),
        None => Err(13),
    }
}
