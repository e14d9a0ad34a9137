//! The fast version answers as the simple one on everything.

use oracle::bytes::{self, record_bytes};
use oracle::gen::{self, Rng, FULL, SMALL, TINY, TINY_SIX};
use oracle::Cycle::{SixRound, TwoRound};
use oracle::*;

fn same(bytes: &[u8]) -> u8 {
    let simple = run(TwoRound, bytes);
    assert_eq!(fast::run(bytes), simple, "{bytes:02x?}");
    assert_eq!(fast::run_six(bytes), run(SixRound, bytes), "{bytes:02x?}");
    assert_eq!(fast::grade_six(bytes), grade(SixRound, bytes), "{bytes:02x?}");
    assert_eq!(fast::check(bytes), check(bytes));
    assert_eq!(fast::own_bit(bytes), own_bit(bytes));
    assert_eq!(fast::grade(bytes), grade(TwoRound, bytes), "{bytes:02x?}");
    assert_eq!(fast::read(bytes), read(bytes));
    simple.0
}

#[test]
fn random_recordings() {
    let mut rng = Rng::new(51);
    for _ in 0..6_000 {
        assert_eq!(same(&gen::recording(TwoRound, &mut rng, SMALL)), 0);
    }
    for _ in 0..60 {
        assert_eq!(same(&gen::recording(TwoRound, &mut rng, FULL)), 0);
    }
    for _ in 0..6 {
        assert_eq!(same(&gen::largest(TwoRound, &mut rng)), 0);
    }
}

#[test]
fn made_recordings() {
    let mut rng = Rng::new(52);
    for k in 0..2_000 {
        let plain = gen::with_marks(TwoRound, &mut rng, SMALL, gen::MAJORITY);
        assert_eq!(same(&gen::bytes_of(&plain)), 0);
        let asked = if k % 2 == 0 { gen::MAJORITY } else { gen::NONE };
        let made = gen::calm(TwoRound, &mut rng, SMALL, asked);
        assert_eq!(same(&gen::bytes_of(&made.plain)), 0);
        let plain = gen::with_marks(SixRound, &mut rng, TINY_SIX, gen::ZERO);
        assert_eq!(same(&gen::bytes_of(&plain)), 0);
        let plain = gen::plain(SixRound, &mut rng, SMALL);
        assert_eq!(same(&gen::bytes_of(&plain)), 0);
    }
}

#[test]
fn damaged_recordings() {
    let mut rng = Rng::new(53);
    for k in 0..3_000 {
        let refusal = (k % 6) as u8 + 1;
        let damaged = gen::damaged(&mut rng, TINY, refusal);
        assert_eq!(same(&damaged.bytes), refusal);
    }
}

#[test]
fn flipped_and_random_bytes() {
    let mut rng = Rng::new(54);
    for _ in 0..6_000 {
        let mut bytes = gen::recording(TwoRound, &mut rng, TINY);
        for _ in 0..rng.within(1, 4) {
            let at = rng.below(8 * bytes.len());
            bytes[at / 8] ^= 0x80 >> (at % 8);
        }
        same(&bytes);
        let count = rng.below(12);
        let bytes: Vec<u8> = (0..count).map(|_| rng.next_u64() as u8).collect();
        same(&bytes);
    }
}

#[test]
fn random_records() {
    let mut rng = Rng::new(55);
    for _ in 0..6_000 {
        let fleet = gen::record(TwoRound, &mut rng);
        let habits = gen::habits(&mut rng);
        let words =
            gen::round(TwoRound, &mut rng, fleet.n as usize, fleet.done as usize + 1, &habits);
        assert_eq!(fast::step(&fleet, &words), step(TwoRound, &fleet, &words));
    }
}

#[test]
fn random_records_in_six_rounds() {
    let mut rng = Rng::new(57);
    for k in 0..6_000 {
        let made = if k % 3 == 0 { Cycle::TwoRound } else { SixRound };
        let fleet = gen::record(made, &mut rng);
        let n = fleet.n as usize;
        let habits = gen::habits(&mut rng);
        let words = gen::round(SixRound, &mut rng, n, fleet.done as usize + 1, &habits);
        let expected = step(SixRound, &fleet, &words);
        assert_eq!(fast::step_six(&fleet, &words), expected);
        let mut lent = record_bytes(&fleet);
        assert_eq!(fast::step_bytes_six(&mut lent, &words), expected.0);
        assert_eq!(lent, record_bytes(&expected.1));
        let (bad, _) = gen::bad_round(&mut rng, n);
        assert_eq!(fast::step_six(&fleet, &bad), step(SixRound, &fleet, &bad));
    }
    for broken in gen::broken_records(SixRound, &mut rng) {
        let fleet = broken.fleet;
        let words = vec![0; 3 + fleet.n.clamp(1, 32) as usize];
        assert_eq!(fast::step_six(&fleet, &words), step(SixRound, &fleet, &words));
    }
    let mut damaged = gen::damaged_record(SixRound, &mut rng);
    let mut other = damaged.bytes;
    let words = vec![0; 3 + damaged.fleet.n as usize];
    let expected = bytes::step(&mut other, &words, |f, w| step(SixRound, f, w));
    assert_eq!(fast::step_bytes_six(&mut damaged.bytes, &words), expected);
    assert_eq!(damaged.bytes, other);
}

#[test]
fn own_bits_of_plain_rounds() {
    let mut rng = Rng::new(56);
    let mut named = 0;
    for k in 0..6_000 {
        let w = gen::writing(&mut rng, TINY, [0, 2, 3, 7, 8, 6, 6][k % 7]);
        let expected = write_own_bit(w.n, w.rounds, &w.openings, &w.words);
        assert_eq!(fast::write_own_bit(w.n, w.rounds, &w.openings, &w.words), expected);
        named += usize::from(expected.is_some());
        let n = rng.within(1, 32);
        let (words, _) = gen::bad_round(&mut rng, n);
        for (n, round) in [(n as u32, 1), (n as u32, 400), (n as u32, 401), (n as u32, 0), (33, 1)]
        {
            let expected = round_own_bit(n, round, &words);
            assert_eq!(fast::round_own_bit(n, round, &words), expected);
            named += usize::from(expected.is_some());
        }
    }
    assert!(named > 1_000);
}
