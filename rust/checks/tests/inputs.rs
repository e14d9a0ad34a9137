//! The inputs that are measured: each is what its name says, and the library, the independent reading and the fast one come to the same on it.

use checks::{inputs, own_loss_number, same};
use oracle::bytes::{record_bytes, RECORD};
use oracle::{fast, Cycle};
use std::collections::BTreeSet;

/// Running, grading, reading and writing of an accepted recording.
fn same(bytes: &[u8]) {
    let (number, fleet) = oracle::run(Cycle::TwoRound, bytes);
    assert_eq!((number, fleet), fast::run(bytes));
    let mut record = [0; RECORD];
    assert_eq!((number, checks::run(Cycle::TwoRound, bytes, &mut record)), (0, 0));
    assert_eq!(record, record_bytes(&fleet));

    let expected = oracle::grade(Cycle::TwoRound, bytes).unwrap();
    assert_eq!(Ok(expected), fast::grade(bytes));
    let mut grades = [0; 4];
    assert_eq!((checks::grade(Cycle::TwoRound, bytes, &mut grades), grades), (0, expected));

    let plain = oracle::read(bytes).unwrap();
    assert_eq!(Ok(&plain), fast::read(bytes).as_ref());
    let (mut openings, mut words) = (vec![0; plain.n], vec![0; plain.words.len()]);
    let (mut n, mut rounds) = (0, 0);
    assert_eq!(checks::read(bytes, &mut openings, &mut words, &mut n, &mut rounds), 0);
    assert_eq!((n as usize, rounds as usize), (plain.n, plain.rounds));
    assert_eq!((&openings, &words), (&plain.openings, &plain.words));

    let mut back = vec![0; bytes.len()];
    let mut written = 0;
    assert_eq!(checks::write(n, rounds, &openings, &words, &mut back, &mut written), 0);
    assert_eq!((&back[..], written), (bytes, bytes.len()));
}

#[test]
fn measured_recordings() {
    let all: Vec<_> = inputs::largest().into_iter().chain(inputs::sizes()).collect();
    assert_eq!(all.iter().map(|input| &input.what).collect::<BTreeSet<_>>().len(), 27);
    all.iter().for_each(|input| same(&input.bytes));
}

#[test]
fn measured_steps() {
    let all = inputs::steps();
    assert_eq!(all.len(), 6);
    for input in &all {
        let (number, next) = oracle::step(Cycle::TwoRound, &input.fleet, &input.words);
        assert_eq!((number, next), fast::step(&input.fleet, &input.words));
        let mut record = record_bytes(&input.fleet);
        assert_eq!(u32::from(number), checks::step(Cycle::TwoRound, &mut record, &input.words));
        assert_eq!(record, record_bytes(&next));
        let mut plain = record_bytes(&input.fleet);
        assert_eq!((fast::step_bytes(&mut plain, &input.words), plain), (number, record));
    }
}

#[test]
fn measured_in_six_rounds() {
    let all = inputs::six();
    assert_eq!(all.iter().map(|input| &input.what).collect::<BTreeSet<_>>().len(), 11);
    for input in &all {
        let bytes = &input.bytes;
        assert_eq!(same::run(Cycle::SixRound, bytes), 0);
        same::grade(Cycle::SixRound, bytes);
        assert_eq!(fast::run_six(bytes), oracle::run(Cycle::SixRound, bytes));
        assert_eq!(fast::grade_six(bytes), oracle::grade(Cycle::SixRound, bytes));
    }
    let steps = inputs::steps_of_six();
    assert_eq!(steps.len(), 9);
    for input in &steps {
        assert_eq!(input.cycle, Cycle::SixRound);
        let (number, next) = same::step(input.cycle, &input.fleet, &input.words);
        assert_eq!((number, fast::step_six(&input.fleet, &input.words)), (0, (0, next)));
        let mut plain = record_bytes(&input.fleet);
        assert_eq!(fast::step_bytes_six(&mut plain, &input.words), 0);
        assert_eq!(plain, record_bytes(&next));
    }
}

#[test]
fn measured_own_bit() {
    let bytes = inputs::own_bit_at_the_end().bytes;
    let named = oracle::own_bit(&bytes);
    assert_eq!(fast::own_bit(&bytes), named);
    assert_eq!(checks::recording_own_loss(&bytes), own_loss_number(named));
}
