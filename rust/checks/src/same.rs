//! One call on both sides: the library answers as the independent reading does, and leaves what is around its buffers. And
//! what is claimed of the record that it leaves.

use oracle::bytes::{place_of, record_bytes, RECORD};
use oracle::{Cycle, Fleet};

use crate::steps::EXPORTED;

/// What a buffer holds before a call, so that a stray write shows.
pub const FILL: u8 = 0xA5;

/// Running any bytes, accepted or not. The number answered.
pub fn run(cycle: Cycle, bytes: &[u8]) -> u32 {
    let (number, record) = oracle::run(cycle, bytes);
    let number = u32::from(number);
    let mut d = [FILL; RECORD + 3];
    assert_eq!(crate::run(cycle, bytes, &mut d), number);
    if number == 0 {
        assert_eq!(d[..RECORD], record_bytes(&record));
        assert_eq!(d[RECORD..], [FILL; 3]);
    } else {
        assert_eq!(d, [FILL; RECORD + 3]);
    }
    number
}

/// Grading any bytes, accepted or not.
pub fn grade(cycle: Cycle, bytes: &[u8]) {
    let mut grades = [999u16; 5];
    let graded = crate::grade(cycle, bytes, &mut grades);
    match oracle::grade(cycle, bytes) {
        Ok(g) => assert_eq!((graded, &grades[..]), (0, &[g[0], g[1], g[2], g[3], 999][..])),
        Err(k) => assert_eq!((graded, grades), (u32::from(k), [999; 5])),
    }
}

/// One step of a record by the exported call. The number answered and the record that it leaves.
pub fn step(cycle: Cycle, f: &Fleet, words: &[u32]) -> (u32, Fleet) {
    EXPORTED.same_step(cycle, f, words)
}

/// No two decided trucks of a record hold different crushers, and each holds an opening. Whether several have decided.
pub fn agrees(record: &[u8; RECORD], openings: &[u8]) -> bool {
    let places = (0..usize::from(record[0])).map(|i| &record[place_of(i)..]);
    let decided: Vec<u8> = places.filter(|place| place[4] == 2).map(|place| place[1]).collect();
    assert!(decided.iter().all(|v| *v == decided[0] && openings.contains(v)));
    decided.len() > 1
}
