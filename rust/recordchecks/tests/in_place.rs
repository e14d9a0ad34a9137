//! A record taken from its bytes, stepped as a whole with each truck where it stands, and put back, beside the exported step, which goes from bytes to bytes:
//! both answer the same number and leave the same bytes, and these are what the independent reading says.

use std::collections::BTreeMap;

use checks::steps::{a_round, Calls, EXPORTED};
use checks::times;
use oracle::bytes::{place_of, record_bytes, record_of, RECORD};
use oracle::gen::{self, Rng, TINY};
use oracle::Cycle::{self, SixRound, TwoRound};

/// Each call by both ways.
const BOTH: Calls = Calls { start: start_both, step: step_both };

fn start_both(trucks: u32, openings: &[u8], record: &mut [u8]) -> u32 {
    let mut exported = record.to_vec();
    let number = recordchecks::start(trucks, openings, record);
    assert_eq!((EXPORTED.start)(trucks, openings, &mut exported), number);
    assert_eq!(record, exported);
    number
}

fn step_both(cycle: Cycle, record: &mut [u8], words: &[u32]) -> u32 {
    let mut exported = record.to_vec();
    let number = recordchecks::step(cycle, record, words);
    assert_eq!((EXPORTED.step)(cycle, &mut exported, words), number);
    assert_eq!(record, exported);
    number
}

#[test]
fn starts() {
    BOTH.starts(201, 9_000);
}

#[test]
fn lists_of_steps() {
    BOTH.lists_of_steps(TwoRound, 202, 20_000, |_, _| ());
    BOTH.lists_of_steps(SixRound, 203, 7_000, |_, _| ());
}

#[test]
fn lists_that_change_the_cycle() {
    BOTH.lists_that_change_the_cycle(204, 7_000);
}

#[test]
fn records_handed_in() {
    BOTH.records_handed_in(TwoRound, 205, 200, 20_000);
    BOTH.records_handed_in(SixRound, 206, 70, 7_000);
}

#[test]
fn damaged_record_bytes() {
    BOTH.damaged_record_bytes(TwoRound, 207, 20_000);
    BOTH.damaged_record_bytes(SixRound, 208, 7_000);
}

#[test]
fn changed_record_bytes() {
    BOTH.changed_record_bytes(209, 14_000);
}

#[test]
fn any_bytes_above_n() {
    BOTH.any_bytes_above_n(210, 14_000);
}

/// Some bytes that are a record, and some that are none.
fn some_record(rng: &mut Rng) -> Vec<u8> {
    let cycle = rng.pick(&Cycle::ALL);
    match rng.below(8) {
        0 => gen::damaged_record(cycle, rng).bytes.to_vec(),
        1 => {
            let mut short = record_bytes(&gen::record(cycle, rng)).to_vec();
            short.truncate(rng.below(RECORD));
            short
        }
        2 => (0..RECORD).map(|_| rng.below(3) as u8).collect(),
        _ => record_bytes(&gen::record(cycle, rng)).to_vec(),
    }
}

/// The record of some bytes put into a buffer that holds others: the head and the places below n, and nothing else.
fn copy(rng: &mut Rng) -> u32 {
    let record = some_record(rng);
    let room = RECORD - 8 + rng.below(16);
    let before: Vec<u8> = (0..room).map(|_| rng.next_u64() as u8).collect();
    let mut after = before.clone();
    let number = recordchecks::copy(&record, &mut after);
    let put = match record.first_chunk().and_then(record_of) {
        None => Err(7),
        Some(_) if room < RECORD => Err(9),
        Some(f) => Ok(place_of(usize::from(f.n))),
    };
    assert_eq!(number, put.err().unwrap_or(0));
    let end = put.unwrap_or(0);
    assert_eq!(after[..end], record[..end]);
    assert_eq!(after[end..], before[end..]);
    number
}

#[test]
fn copies() {
    let mut rng = Rng::new(211);
    let mut met = BTreeMap::new();
    for _ in 0..times(20_000) {
        *met.entry(copy(&mut rng)).or_insert(0) += 1;
    }
    assert!([0, 7, 9].iter().all(|number| met[number] > 1000), "{met:?}");
}

/// A few inputs of each kind, for a run under a memory checker.
#[test]
fn small_set() {
    let mut rng = Rng::new(212);
    for k in 0..120 {
        let cycle = Cycle::ALL[k % 2];
        let f = gen::record(cycle, &mut rng);
        let words = a_round(cycle, &mut rng, &f);
        BOTH.same_step(cycle, &f, &words);
        let list = gen::list(cycle, &mut rng, TINY);
        let mut record = [0; RECORD];
        start_both(list.n as u32, &list.openings, &mut record);
        for words in &list.steps {
            step_both(cycle, &mut record, words);
        }
        copy(&mut rng);
    }
}
