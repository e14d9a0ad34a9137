//! The paper's worked cases, and one that fixes the order of single bits.

use oracle::gen::Roads;
use oracle::marks::{classes_of, radios};
use oracle::steps::{follow, radio};
use oracle::Cycle::TwoRound;
use oracle::*;

const C1: [u8; 8] = [0x08, 0x04, 0x35, 0x30, 0x00, 0x03, 0x00, 0x00];
const C2: [u8; 6] = [0x08, 0x02, 0x35, 0x31, 0x80, 0x00];

fn decided(opening: u8, crusher: u8, round: u16) -> Truck {
    Truck { estimate: crusher, state: State::Decided(round), ..Truck::opened(opening) }
}

/// The same truck, having sent so many proposals and vetoes.
fn sent(proposals: u8, vetoes: u8, truck: Truck) -> Truck {
    Truck { sent: Sent { proposals, vetoes }, ..truck }
}

/// The record of an accepted run.
fn accepted(bytes: &[u8]) -> Fleet {
    let (number, fleet) = run(TwoRound, bytes);
    assert_eq!(number, 0);
    assert_eq!(fast::run(bytes), (0, fleet));
    fleet
}

/// A refused recording answers its number everywhere.
fn refused(bytes: &[u8], refusal: u8) {
    assert_eq!(check(bytes), Err(refusal));
    assert_eq!(read(bytes), Err(refusal));
    assert_eq!(grade(TwoRound, bytes), Err(refusal));
    assert_eq!(run(TwoRound, bytes), (refusal, Fleet::blank()));
    assert_eq!(fast::run(bytes), (refusal, Fleet::blank()));
    assert_eq!(fast::grade(bytes), Err(refusal));
    if refusal != 6 {
        assert_eq!(own_bit(bytes), None);
        assert_eq!(listing(bytes), format!("refused {refusal}\n"));
    }
}

fn with_zeros(first: [u8; 2], zeros: usize) -> Vec<u8> {
    let mut bytes = first.to_vec();
    bytes.resize(2 + zeros, 0);
    bytes
}

#[test]
fn c1_two_values_then_one() {
    let fleet = accepted(&C1);
    assert_eq!((fleet.n, fleet.done), (2, 4));
    // Both send in rounds 1 and 3, and a veto in round 2.
    assert_eq!(
        fleet.trucks_below_n(),
        [sent(2, 1, decided(3, 3, 4)), sent(2, 1, decided(5, 3, 4))]
    );
    assert_eq!(fleet.totals(), (4, 2));
    assert_eq!(
        listing(&C1),
        "trucks 2 rounds 4\n\
         0 opened 3 decided 3 round 4 sent 2 vetoes 1\n\
         1 opened 5 decided 3 round 4 sent 2 vetoes 1\n\
         sent 4 vetoes 2\n"
    );
    assert_eq!(program(&C1), listing(&C1));

    let plain = read(&C1).unwrap();
    let active = [0, 0b11, 0, 0, 0];
    let silent = [0; 5];
    assert_eq!(plain.openings, [3, 5]);
    assert_eq!(plain.words, [active, silent, active, silent].concat());

    let (_, fleet) = start(2, &[3, 5]);
    let fleet = follow(TwoRound, &fleet, plain.round(1));
    for truck in fleet.trucks_below_n() {
        assert_eq!((truck.estimate, truck.heard, truck.mark), (3, Heard::Several, false));
    }
    assert_eq!(radio(TwoRound, &fleet, plain.round(2)).sends, [true, true]);
    assert_eq!(radios(TwoRound, &plain)[3].messages(), 0);
    assert_eq!(grade(TwoRound, &C1), Ok([0, 0, 0, 0]));
}

#[test]
fn c2_half_is_no_majority() {
    let fleet = accepted(&C2);
    // Both send in round 1, and neither has a reason for a veto.
    assert_eq!(
        fleet.trucks_below_n(),
        [sent(1, 0, decided(3, 3, 2)), sent(1, 0, decided(5, 5, 2))]
    );
    assert_eq!(
        listing(&C2),
        "trucks 2 rounds 2\n\
         0 opened 3 decided 3 round 2 sent 1 vetoes 0\n\
         1 opened 5 decided 5 round 2 sent 1 vetoes 0\n\
         sent 2 vetoes 0\n"
    );
    assert_eq!(grade(TwoRound, &C2), Ok([1, 1, 0, 0]));
    assert_eq!(fast::grade(&C2), Ok([1, 1, 0, 0]));
    let first = &radios(TwoRound, &read(&C2).unwrap())[0];
    assert_eq!((first.messages(), first.heard(0), first.heard(1)), (2, 1, 1));
}

#[test]
fn c3_marks_hold_both_back() {
    let bytes = [0x08, 0x02, 0x35, 0x3D, 0x80, 0x00];
    assert_eq!(read(&bytes).unwrap().round(1), [0, 0b11, 0b11, 0b10, 0b01]);
    let fleet = accepted(&bytes);
    // Both send in round 1, and a veto in round 2 for their marks.
    assert_eq!(
        fleet.trucks_below_n(),
        [sent(1, 1, Truck::opened(3)), sent(1, 1, Truck::opened(5))]
    );
    assert_eq!(radios(TwoRound, &read(&bytes).unwrap())[1].sends, [true, true]);
    assert_eq!(grade(TwoRound, &bytes), Ok([0, 0, 0, 0]));
    assert_eq!(
        listing(&bytes),
        "trucks 2 rounds 2\n\
         0 opened 3 running 3 sent 1 vetoes 1\n\
         1 opened 5 running 5 sent 1 vetoes 1\n\
         sent 2 vetoes 2\n"
    );
}

#[test]
fn c4_one_truck() {
    let active = [0x04, 0x02, 0x74, 0x00];
    assert_eq!(accepted(&active).trucks_below_n(), [sent(1, 0, decided(7, 7, 2))]);
    assert_eq!(
        listing(&active),
        "trucks 1 rounds 2\n0 opened 7 decided 7 round 2 sent 1 vetoes 0\nsent 1 vetoes 0\n"
    );
    let never_active = [0x04, 0x02, 0x70, 0x00];
    assert_eq!(accepted(&never_active).trucks_below_n(), [Truck::opened(7)]);
    assert_eq!(
        listing(&never_active),
        "trucks 1 rounds 2\n0 opened 7 running 7 sent 0 vetoes 0\nsent 0 vetoes 0\n"
    );
}

#[test]
fn c5_no_rounds() {
    let bytes = [0x08, 0x00, 0x35];
    assert_eq!(accepted(&bytes).trucks_below_n(), [Truck::opened(3), Truck::opened(5)]);
    assert_eq!(accepted(&bytes), start(2, &[3, 5]).1);
    assert_eq!(accepted(&bytes).totals(), (0, 0));
    assert_eq!(
        listing(&bytes),
        "trucks 2 rounds 0\n\
         0 opened 3 running 3 sent 0 vetoes 0\n\
         1 opened 5 running 5 sent 0 vetoes 0\n\
         sent 0 vetoes 0\n"
    );
    assert_eq!(grade(TwoRound, &bytes), Ok([0, 0, 0, 0]));
    for n in 1..=32 {
        let openings: Vec<u8> = (0..n as u8).map(|i| i % 16).collect();
        let bytes = write(n, 0, &openings, &[]).unwrap();
        assert_eq!(accepted(&bytes), start(n, &openings).1);
    }
}

#[test]
fn c6_n_of_32_and_33() {
    let fleet = accepted(&with_zeros([0x80, 0x00], 16));
    assert_eq!((fleet.n, fleet.done), (32, 0));
    refused(&with_zeros([0x84, 0x00], 17), 2);
    let mut ones = vec![0x80, 0x00];
    ones.extend([0x11; 16]);
    assert_eq!(accepted(&ones).trucks, [Truck::opened(1); 32]);
}

#[test]
fn c7_r_of_400_and_401() {
    let fleet = accepted(&with_zeros([0x05, 0x90], 201));
    assert_eq!((fleet.n, fleet.done), (1, 400));
    assert_eq!(fleet.trucks_below_n(), [Truck::opened(0)]);
    refused(&with_zeros([0x05, 0x91], 201), 3);
}

#[test]
fn c8_c9_c10_damaged() {
    refused(&C1[..7], 4);
    let mut c9 = C2;
    c9[5] = 0x01;
    refused(&c9, 5);
    let mut c10 = C2;
    c10[3] = 0x33;
    refused(&c10, 6);
    assert_eq!(own_bit(&c10), Some(OwnBit { round: 1, truck: 0 }));
    assert_eq!(listing(&c10), "refused 6 round 1 truck 0\n");
    refused(&[], 1);
    refused(&[0x08], 1);
}

#[test]
fn c11_c12_roads() {
    let ask = |roads: &[(u16, u16, u16)]| {
        let lists = Roads::of(roads);
        let exact = opening(&lists.lengths, &lists.metres, &lists.seconds);
        assert_eq!(fast::opening(&lists.lengths, &lists.metres, &lists.seconds), exact);
        exact
    };
    assert_eq!(ask(&[(1200, 600, 90), (900, 300, 60)]), Ok(0));
    for (l, m, s) in [(1200, 600, 90), (900, 300, 60)] {
        let time = roads::exact_time(l, m, s).unwrap();
        assert_eq!(time.product, 180 * time.metres);
        assert_eq!(roads::float_time(l, m, s), Some(180.0));
    }
    assert_eq!(ask(&[(500, 0, 40), (900, 300, 60)]), Ok(1));
    assert_eq!(ask(&[(500, 0, 40)]), Err(13));
    assert_eq!(ask(&[(500, 1, 0)]), Err(12));
}

#[test]
fn c13_two_of_three_is_a_majority() {
    // Three trucks of opening 1, all active; truck 0 misses truck 2.
    let words = [0, 0b111, 0, 0b100, 0, 0];
    let bytes = write(3, 1, &[1, 1, 1], &words).unwrap();
    assert_eq!(bytes, [0x0C, 0x01, 0x11, 0x11, 0xC1, 0x00]);
    assert_eq!(grade(TwoRound, &bytes), Ok([1, 0, 0, 0]));
    assert_eq!(fast::grade(&bytes), Ok([1, 0, 0, 0]));
    let kept = classes_of(TwoRound, &read(&bytes).unwrap())[0];
    assert!(kept.majority && !kept.complete);
}

#[test]
fn single_bits_come_truck_0_first() {
    // Two trucks, only truck 1 stops.
    let bytes = [0x08, 0x01, 0x35, 0x40, 0x00];
    assert_eq!(read(&bytes).unwrap().words, [0b10, 0, 0, 0, 0]);
    assert_eq!(
        listing(&bytes),
        "trucks 2 rounds 1\n\
         0 opened 3 running 3 sent 0 vetoes 0\n\
         1 opened 5 stopped 5 round 1 sent 0 vetoes 0\n\
         sent 0 vetoes 0\n"
    );
    // Two trucks, only truck 1 active: truck 0 takes the 5 too.
    let bytes = [0x08, 0x01, 0x35, 0x10, 0x00];
    assert_eq!(read(&bytes).unwrap().words, [0, 0b10, 0, 0, 0]);
    assert_eq!(
        listing(&bytes),
        "trucks 2 rounds 1\n\
         0 opened 3 running 5 sent 0 vetoes 0\n\
         1 opened 5 running 5 sent 1 vetoes 0\n\
         sent 1 vetoes 0\n"
    );
    // Both active, only truck 1 marked: truck 1 keeps its 5.
    let bytes = [0x08, 0x01, 0x35, 0x34, 0x00];
    assert_eq!(read(&bytes).unwrap().words, [0, 0b11, 0b10, 0, 0]);
    assert_eq!(
        listing(&bytes),
        "trucks 2 rounds 1\n\
         0 opened 3 running 3 sent 1 vetoes 0\n\
         1 opened 5 running 5 sent 1 vetoes 0\n\
         sent 2 vetoes 0\n"
    );
    assert_eq!(grade(TwoRound, &bytes), Ok([0, 0, 0, 1]));
    // Row 0 with bit 1: truck 0 misses truck 1, and not the other way round.
    let bytes = [0x08, 0x01, 0x53, 0x31, 0x00];
    assert_eq!(read(&bytes).unwrap().words, [0, 0b11, 0, 0b10, 0]);
    assert_eq!(
        listing(&bytes),
        "trucks 2 rounds 1\n\
         0 opened 5 running 5 sent 1 vetoes 0\n\
         1 opened 3 running 3 sent 1 vetoes 0\n\
         sent 2 vetoes 0\n"
    );
}

#[test]
fn longer_inputs_meet_their_refusal() {
    let mut long = vec![0; 60_000];
    for (header, refusal) in [([0x81, 0x90], 4), ([0x00, 0x00], 2), ([0x81, 0x91], 3)] {
        long[..2].copy_from_slice(&header);
        refused(&long, refusal);
        refused(&long[..56_019], refusal);
        assert_eq!(program(&long), format!("refused {refusal}\n"));
    }
    long[..2].copy_from_slice(&[0x81, 0x90]);
    assert_eq!(check(&long[..56_018]), Ok(Header { n: 32, rounds: 400 }));
    refused(&long[..56_017], 4);
}
