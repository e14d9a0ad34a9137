//! The bit reader compared with a reading bit by bit: where eight bytes remain, where they no longer do, and past the end.

use oracle::gen::Rng;
use std::ops::RangeInclusive;

/// The bit at a place, 0 past the end.
fn bit(bytes: &[u8], place: u128) -> u32 {
    match bytes.get((place / 8) as usize) {
        Some(byte) => u32::from(byte >> (7 - place % 8) & 1),
        None => 0,
    }
}

/// Both calls at one place and of one width.
fn compare(bytes: &[u8], at: usize, k: usize) {
    let (mut number, mut row) = (0u32, 0u32);
    let width = k.min(32);
    for i in 0..width {
        let b = bit(bytes, at as u128 + i as u128);
        number = number << 1 | b;
        row |= b << i;
    }
    let next = at.saturating_add(width);
    assert_eq!(
        bitchecks::take(bytes, at, k),
        (number, next),
        "{} bytes, place {at}, {k} bits",
        bytes.len()
    );
    assert_eq!(
        bitchecks::row(bytes, at, k),
        row,
        "{} bytes, place {at}, {k} bits, as a row",
        bytes.len()
    );
}

/// Every width at every one of these places; answers how many pairs there were.
fn every_width(bytes: &[u8], places: RangeInclusive<usize>) -> usize {
    let mut compared = 0;
    for at in places {
        for k in (0..=40).chain([63, 64, 65, usize::MAX]) {
            compare(bytes, at, k);
            compared += 1;
        }
    }
    compared
}

/// What a slice holds, by its number: all ones, a single one in an otherwise empty slice, or random bytes.
fn fill(rng: &mut Rng, slice: &mut [u8], filling: usize) {
    match filling {
        0 => slice.fill(0xFF),
        1 => {
            slice.fill(0);
            if !slice.is_empty() {
                let bits = 8 * slice.len();
                oracle::recording::set_bit(slice, rng.below(bits));
            }
        }
        _ => slice.iter_mut().for_each(|b| *b = rng.next_u64() as u8),
    }
}

/// Slices of 0 to 24 bytes, with ones before and behind them, so that a stray read shows.
#[test]
fn slices_of_0_to_24_bytes() {
    let mut rng = Rng::new(31);
    let mut compared = 0;
    for length in 0..=24 {
        for filling in 0..8 {
            let mut around = [0xFF; 56];
            let slice = &mut around[16..16 + length];
            fill(&mut rng, slice, filling);
            compared += every_width(slice, 0..=8 * length + 80);
            compared += every_width(slice, usize::MAX - 80..=usize::MAX);
        }
    }
    // 25 lengths, 8 fillings, 45 widths, and 162 places besides 8 for each byte
    assert_eq!(compared, (25 * 162 + 8 * 300) * 8 * 45);
}

/// The last eight bytes of a largest recording, those before them, and past its end.
#[test]
fn end_of_a_largest_slice() {
    let mut rng = Rng::new(32);
    let length = oracle::recording::LARGEST;
    for filling in [0, 2, 3] {
        let mut around = vec![0xFF; length + 32];
        let slice = &mut around[16..16 + length];
        fill(&mut rng, slice, filling);
        let end = 8 * length;
        assert_eq!(every_width(slice, end - 200..=end + 80), 281 * 45);
    }
}

/// Each slice in a block of its own length, for a run under a memory checker.
#[test]
fn blocks_of_their_own_length() {
    let mut rng = Rng::new(33);
    for length in 0..=24 {
        let mut block = vec![0; length].into_boxed_slice();
        fill(&mut rng, &mut block, 2);
        for at in 0..=8 * length + 8 {
            for k in [0, 1, 2, 8, 25, 31, 32] {
                compare(&block, at, k);
            }
        }
    }
}
