//! The scope paper's worked cases through the exported functions. What is expected is the paper's.

use rajvokshul::*;

const C1: [u8; 8] = [0x08, 0x04, 0x35, 0x30, 0x00, 0x03, 0x00, 0x00];
const C2: [u8; 6] = [0x08, 0x02, 0x35, 0x31, 0x80, 0x00];
const C3: [u8; 6] = [0x08, 0x02, 0x35, 0x3d, 0x80, 0x00];

fn with_zeros(first: [u8; 2], zeros: usize) -> Vec<u8> {
    let mut bytes = first.to_vec();
    bytes.resize(2 + zeros, 0);
    bytes
}

/// Estimate, state, proposals and vetoes sent of each truck after a run.
fn ends(recording: &[u8]) -> Vec<(u8, State, u8, u8)> {
    let fleet = Fleet::run(recording).unwrap();
    let trucks = (0..usize::from(fleet.trucks())).map(|i| fleet.truck(i).unwrap());
    trucks.map(|t| (t.estimate, t.state, t.sent.proposals, t.sent.vetoes)).collect()
}

/// A refused recording answers its number everywhere.
fn refused(recording: &[u8], refusal: Refusal) {
    assert_eq!(list(recording), Err(refusal));
    assert_eq!(Fleet::run(recording), Err(refusal));
    assert_eq!(grade(recording), Err(refusal));
    assert_eq!(read(recording), Err(refusal));
}

#[test]
fn c1_decides_in_round_4() {
    assert_eq!(
        list(&C1).unwrap(),
        "trucks 2 rounds 4\n\
         0 opened 3 decided 3 round 4 sent 2 vetoes 1\n\
         1 opened 5 decided 3 round 4 sent 2 vetoes 1\n\
         sent 4 vetoes 2\n"
    );
    let plain = read(&C1).unwrap();
    assert_eq!((plain.rounds, &plain.openings[..]), (4, &[3, 5][..]));
    assert_eq!(write(2, 4, &plain.openings, &plain.words).unwrap(), C1);

    let mut fleet = Fleet::start(2, &plain.openings).unwrap();
    fleet.step(plain.round(1).unwrap()).unwrap();
    for i in 0..2 {
        let t = fleet.truck(i).unwrap();
        assert_eq!(
            (t.estimate, t.mark, t.heard, t.state),
            (3, false, Heard::Several, State::Running)
        );
        assert_eq!((t.sent.proposals, t.sent.vetoes), (1, 0));
    }
    for k in 2..=4 {
        fleet.step(plain.round(k).unwrap()).unwrap();
    }
    assert_eq!(fleet, Fleet::run(&C1).unwrap());
    assert_eq!((fleet.trucks(), fleet.rounds_done()), (2, 4));
    assert_eq!(fleet.truck(2), None);
}

#[test]
fn c2_half_is_no_majority() {
    assert_eq!(ends(&C2), [(3, State::Decided(2), 1, 0), (5, State::Decided(2), 1, 0)]);
    let complete = Grades::default().with_first_break(Class::Complete, 1);
    assert_eq!(grade(&C2), Ok(complete.with_first_break(Class::Majority, 1)));
}

#[test]
fn c3_marked_trucks_keep_and_veto() {
    assert_eq!(ends(&C3), [(3, State::Running, 1, 1), (5, State::Running, 1, 1)]);
}

#[test]
fn c4_and_c5_one_truck_and_no_rounds() {
    assert_eq!(ends(&[0x04, 0x02, 0x74, 0x00]), [(7, State::Decided(2), 1, 0)]);
    assert_eq!(ends(&[0x04, 0x02, 0x70, 0x00]), [(7, State::Running, 0, 0)]);
    let untouched = [(3, State::Running, 0, 0), (5, State::Running, 0, 0)];
    assert_eq!(ends(&[0x08, 0x00, 0x35]), untouched);
}

#[test]
fn c6_and_c7_limits() {
    assert_eq!(Fleet::run(&with_zeros([0x80, 0x00], 16)).unwrap().trucks(), 32);
    refused(&with_zeros([0x84, 0x00], 17), Refusal::TruckCount);
    assert_eq!(Fleet::run(&with_zeros([0x05, 0x90], 201)).unwrap().rounds_done(), 400);
    refused(&with_zeros([0x05, 0x91], 201), Refusal::RoundCount);
}

#[test]
fn c8_to_c10_damaged_recordings() {
    refused(&[], Refusal::ShortRecording);
    refused(&C1[..7], Refusal::RecordingLength);
    refused(&[0x08, 0x02, 0x35, 0x31, 0x80, 0x01], Refusal::EndBit);
    refused(&[0x08, 0x02, 0x35, 0x33, 0x80, 0x00], Refusal::OwnLoss { round: 1, truck: 0 });
}

/// A recording of n trucks and so many rounds, all bits 0 but for the own loss bits of these rounds, counted from 1, and
/// trucks. Their places were written down from the scope paper's layout: 16 bits, 4 for each opening, and n * (3 + n) for
/// each round, in which row i begins after 3 + i times n bits.
fn with_own_bits(n: usize, rounds: usize, own: &[(usize, usize)]) -> Vec<u8> {
    let mut bytes = vec![0; (16 + 4 * n + rounds * n * (3 + n)).div_ceil(8)];
    bytes[0] = (n << 2 | rounds >> 8) as u8;
    bytes[1] = rounds as u8;
    for &(round, truck) in own {
        let place = 16 + 4 * n + (round - 1) * n * (3 + n) + (3 + truck) * n + truck;
        bytes[place / 8] |= 0x80 >> (place % 8);
    }
    bytes
}

#[test]
fn an_own_bit_is_named_by_the_earliest_round_and_the_lowest_truck() {
    assert_eq!(with_own_bits(2, 4, &[]).len(), C1.len());
    for (n, rounds, own, round, truck) in [
        (1, 1, vec![(1, 0)], 1, 0),
        (1, 400, vec![(400, 0)], 400, 0),
        // the last truck of the last round
        (32, 400, vec![(400, 31)], 400, 31),
        (31, 400, vec![(400, 30)], 400, 30),
        // several rounds and trucks: a lower truck in a later round does not count
        (5, 7, vec![(3, 4), (3, 2), (5, 0), (7, 1)], 3, 2),
        (32, 400, vec![(2, 31), (400, 0), (3, 0)], 2, 31),
        (32, 2, vec![(1, 31), (1, 30), (2, 0)], 1, 30),
    ] {
        refused(&with_own_bits(n, rounds, &own), Refusal::OwnLoss { round, truck });
    }
    // every truck of every round
    let all: Vec<_> = (1..=3).flat_map(|round| (0..4).map(move |truck| (round, truck))).collect();
    for k in 0..all.len() {
        let (round, truck) = all[k];
        let recording = with_own_bits(4, 3, &all[k..]);
        refused(&recording, Refusal::OwnLoss { round: round as u16, truck: truck as u8 });
    }
    // 5 comes before: of 2 trucks and 1 round six bits are left over
    let mut ended = with_own_bits(2, 1, &[(1, 1)]);
    refused(&ended, Refusal::OwnLoss { round: 1, truck: 1 });
    *ended.last_mut().unwrap() |= 1;
    refused(&ended, Refusal::EndBit);
}

#[test]
fn a_step_names_the_round_that_it_would_have_been() {
    let mut fleet = Fleet::start(3, &[3, 5, 7]).unwrap();
    let own = [0, 0, 0, 0, 0b010, 0b100];
    assert_eq!(fleet.step(own), Err(Refusal::OwnLoss { round: 1, truck: 1 }));
    for done in 1..400 {
        fleet.step([0; 6]).unwrap();
        let last = [0, 0, 0, 0, 0, 0b100];
        assert_eq!(fleet.step(last), Err(Refusal::OwnLoss { round: done + 1, truck: 2 }));
    }
    // a refused step is not counted, and 14 comes before 8 and 6
    assert_eq!(fleet.rounds_done(), 399);
    fleet.step([0; 6]).unwrap();
    assert_eq!(fleet.step(own), Err(Refusal::RoundsDone));
    // 7 and 8 come before
    let mut bytes = *Fleet::start(3, &[3, 5, 7]).unwrap().as_bytes();
    assert_eq!(Fleet::from_bytes(bytes).step([0, 8, 0, 1, 0, 0]), Err(Refusal::PlainRound));
    bytes[3] = 16;
    assert_eq!(Fleet::from_bytes(bytes).step(own), Err(Refusal::Record));
}

#[test]
fn writing_names_the_round_and_8_of_any_round_comes_before() {
    let mut words = vec![0; 4 * 5];
    words[5 + 4] = 0b10;
    words[10 + 3] = 0b01;
    assert_eq!(write(2, 4, &[3, 5], &words), Err(Refusal::OwnLoss { round: 2, truck: 1 }));
    words[5 + 3] = 0b01;
    assert_eq!(write(2, 4, &[3, 5], &words), Err(Refusal::OwnLoss { round: 2, truck: 0 }));
    // a buffer that is too short comes after, and is left as it is
    let mut buffer = [0xee; 7];
    let refused = write_into(2, 4, &[3, 5], &words, &mut buffer);
    assert_eq!((refused, buffer), (Err(Refusal::OwnLoss { round: 2, truck: 0 }), [0xee; 7]));
    // a word too large in a later round, then openings, comes before
    words[19] = 0b100;
    assert_eq!(write(2, 4, &[3, 5], &words), Err(Refusal::PlainRound));
    assert_eq!(write(2, 4, &[3, 16], &words), Err(Refusal::Record));
    // the last truck of the last round
    let mut words = vec![0; 400 * 35];
    words[400 * 35 - 1] = 1 << 31;
    let refused = write(32, 400, &[0; 32], &words);
    assert_eq!(refused, Err(Refusal::OwnLoss { round: 400, truck: 31 }));
    assert_eq!(
        refused.unwrap_err().to_string(),
        "refused 6 round 400 truck 31: a truck's own loss bit is 1, but a truck always hears itself"
    );
}

#[test]
fn c11_and_c12_roads() {
    assert_eq!(opening(&[1200, 900], &[600, 300], &[90, 60]), Ok(0));
    assert_eq!(opening(&[500, 900], &[0, 300], &[40, 60]), Ok(1));
    assert_eq!(opening(&[500], &[0], &[40]), Err(Refusal::AllIdle));
    assert_eq!(opening(&[500], &[1], &[0]), Err(Refusal::NoTime));
    assert_eq!(opening(&[500], &[1], &[3601]), Err(Refusal::Seconds));
    assert_eq!(opening(&[], &[], &[]), Err(Refusal::RoadLists));
}

#[test]
fn standing_at_a_crusher() {
    assert_eq!(opening(&[0], &[0], &[40]), Ok(0));
    assert_eq!(opening(&[900, 0], &[300, 0], &[60, 0]), Ok(1));
    assert_eq!(opening(&[900, 0, 0], &[300, 0, 5], &[60, 40, 60]), Ok(1));
    assert_eq!(opening(&[500, 0], &[0, 0], &[40, 0]), Ok(1));
    assert_eq!(opening(&[0], &[0], &[3601]), Err(Refusal::Seconds));
    assert_eq!(opening(&[0], &[5], &[0]), Err(Refusal::NoTime));
    assert_eq!(opening(&[500], &[7], &[0]), Err(Refusal::NoTime));
    assert_eq!(opening(&[500, 1], &[0, 0], &[40, 0]), Err(Refusal::AllIdle));
    assert_eq!(Refusal::AllIdle.to_string(), "refused 13: every road is idle and longer than 0");
}

#[test]
fn c13_two_of_three_messages_are_a_majority() {
    // All three are active in round 1, and truck 0 misses truck 2.
    let recording = write(3, 1, &[1, 1, 1], &[0, 0b111, 0, 0b100, 0, 0]).unwrap();
    assert_eq!(grade(&recording), Ok(Grades::default().with_first_break(Class::Complete, 1)));
}

#[test]
fn short_buffers_are_refused_and_unchanged() {
    let mut text = [0xee; 8];
    assert_eq!(list_into(&C1, &mut text), Err(Refusal::ShortBuffer));
    assert_eq!(text, [0xee; 8]);
    let (mut openings, mut words) = ([0xee; 2], [7; 19]);
    assert_eq!(read_into(&C1, &mut openings, &mut words), Err(Refusal::ShortBuffer));
    assert_eq!((openings, words), ([0xee; 2], [7; 19]));
    let mut bytes = [0xee; 7];
    assert_eq!(write_into(2, 4, &[3, 5], &[0; 20], &mut bytes), Err(Refusal::ShortBuffer));
    assert_eq!(bytes, [0xee; 7]);
}

#[test]
fn longer_buffers_keep_the_rest() {
    let (mut openings, mut words) = ([0xee; 3], [7; 21]);
    assert_eq!(read_into(&C1, &mut openings, &mut words), Ok((2, 4)));
    assert_eq!((openings[2], words[20]), (0xee, 7));
    let mut bytes = [0xee; 9];
    assert_eq!(write_into(2, 4, &openings[..2], &words[..20], &mut bytes), Ok(8));
    assert_eq!((&bytes[..8], bytes[8]), (&C1[..], 0xee));
}

#[test]
fn rounds_of_a_plain_form_count_from_1_to_the_last() {
    let plain = read(&C1).unwrap();
    assert_eq!(plain.round(1), Some(&[0, 0b11, 0, 0, 0][..]));
    assert_eq!(plain.round(2), Some(&[0; 5][..]));
    assert_eq!(plain.round(4), Some(&[0; 5][..]));
    assert_eq!((plain.round(0), plain.round(5)), (None, None));
    // One truck has four words a round; 4 times the first number is 2 to the 64 and 4.
    let one = read(&[0x04, 0x02, 0x74, 0x00]).unwrap();
    for far in [(1 << 62) + 1, (1 << 62) + 2, 1 << 62, usize::MAX] {
        assert_eq!(one.round(far), None, "{far}");
    }
}

#[test]
fn counts_that_fit_no_record() {
    // 258 is 2 and 65,540 is 4 in the library's own types.
    assert_eq!(Fleet::start(258, &[3, 5]), Err(Refusal::TruckCount));
    assert_eq!(write(258, 4, &[3, 5], &[0; 20]), Err(Refusal::TruckCount));
    assert_eq!(write(2, 65_540, &[3, 5], &[0; 20]), Err(Refusal::RoundCount));
    assert_eq!(write(0, 65_540, &[3, 5], &[0; 20]), Err(Refusal::TruckCount));
}

#[test]
fn refused_steps_leave_the_record() {
    let mut fleet = Fleet::start(2, &[3, 5]).unwrap();
    let before = fleet.clone();
    assert_eq!(fleet.step([0; 4]), Err(Refusal::PlainRound));
    assert_eq!(fleet.step([0, 0b100, 0, 0, 0]), Err(Refusal::PlainRound));
    assert_eq!(fleet.step([0, 0, 0, 0b01, 0]), Err(Refusal::OwnLoss { round: 1, truck: 0 }));
    assert_eq!(fleet, before);
    for _ in 0..400 {
        fleet.step([0; 5]).unwrap();
    }
    assert_eq!(fleet.step([0; 4]), Err(Refusal::RoundsDone));
    assert_eq!(fleet.rounds_done(), 400);
}

#[test]
fn bytes_that_are_no_record() {
    let mut bytes = *Fleet::start(2, &[3, 5]).unwrap().as_bytes();
    // Places of trucks that aren't there are neither judged nor changed.
    bytes[23..].fill(0xee);
    let mut fleet = Fleet::from_bytes(bytes);
    fleet.step([0; 5]).unwrap();
    assert_eq!(fleet.as_bytes()[23..], bytes[23..]);
    // A state that no truck has, and a last byte of a place that is above 1.
    for (at, value) in [(7, 3), (12, 2)] {
        let mut wrong = bytes;
        wrong[at] = value;
        let mut fleet = Fleet::from_bytes(wrong);
        assert_eq!(fleet.truck(0), None);
        assert_eq!(fleet.step([0; 5]), Err(Refusal::Record));
        assert_eq!(fleet.as_bytes(), &wrong);
    }
}

/// One truck that is active and marked in every round sends in every round.
#[test]
fn sending_in_every_round() {
    let recording = write(1, 400, &[7], &[0, 1, 1, 0].repeat(400)).unwrap();
    assert_eq!(ends(&recording), [(7, State::Running, 200, 200)]);
    assert_eq!(
        list(&recording).unwrap(),
        "trucks 1 rounds 400\n0 opened 7 running 7 sent 200 vetoes 200\nsent 200 vetoes 200\n"
    );
    let mut fleet = Fleet::start(1, &[7]).unwrap();
    for done in 1..=400u16 {
        fleet.step([0, 1, 1, 0]).unwrap();
        let sent = fleet.truck(0).unwrap().sent;
        let counts = (u16::from(sent.proposals), u16::from(sent.vetoes));
        assert_eq!(counts, (done.div_ceil(2), done / 2));
    }
    assert_eq!(fleet, Fleet::run(&recording).unwrap());
}

/// Truck 0 stops in round 3, truck 1 decides in round 4, and truck 2 goes on. Worked out by hand.
#[test]
fn stopped_and_decided_trucks_keep_their_counts() {
    let mut fleet = Fleet::start(3, &[3, 5, 3]).unwrap();
    let mut after = |words: [u32; 6]| {
        fleet.step(words).unwrap();
        fleet.iter().map(|t| (t.sent.proposals, t.sent.vetoes)).collect::<Vec<_>>()
    };
    let all = [0, 0b111, 0, 0, 0, 0];
    // 3 and 5 are two values, so that all veto
    assert_eq!(after(all), [(1, 0), (1, 0), (1, 0)]);
    assert_eq!(after([0; 6]), [(1, 1), (1, 1), (1, 1)]);
    // truck 0 stops, and so does not send; a mark keeps truck 2 from deciding
    assert_eq!(after([0b001, 0b111, 0, 0, 0, 0]), [(1, 1), (2, 1), (2, 1)]);
    assert_eq!(after([0, 0, 0b100, 0, 0, 0]), [(1, 1), (2, 1), (2, 1)]);
    assert_eq!(after(all), [(1, 1), (2, 1), (3, 1)]);
    assert_eq!(after([0; 6]), [(1, 1), (2, 1), (3, 1)]);
    let states: Vec<_> = fleet.iter().map(|t| t.state).collect();
    assert_eq!(states, [State::Stopped(3), State::Decided(4), State::Decided(6)]);
}

/// As many proposals as odd rounds done and as many vetoes as even ones are a record, and one more is none.
#[test]
fn counts_beyond_the_rounds_done() {
    // rounds done, and bytes of the state: running, stopped in round 1, decided in round 2
    for done in [0u16, 1, 2, 3, 254, 255, 256, 399, 400] {
        for state in [[0, 0, 0], [1, 1, 0], [2, 2, 0]] {
            if done < u16::from(state[1]) {
                continue;
            }
            let record = |proposals: u16, vetoes: u16| {
                let mut bytes = *Fleet::start(2, &[3, 5]).unwrap().as_bytes();
                bytes[1..3].copy_from_slice(&done.to_le_bytes());
                bytes[17..20].copy_from_slice(&state);
                bytes[20] = proposals as u8;
                bytes[21] = vetoes as u8;
                let sent = |fleet: Fleet| fleet.truck(1).unwrap().sent;
                Fleet::try_from(bytes).map(sent).map(|sent| (sent.proposals, sent.vetoes))
            };
            let (odd, even) = (done - done / 2, done / 2);
            assert_eq!(record(odd, even), Ok((odd as u8, even as u8)), "{done} {state:?}");
            assert_eq!(record(odd + 1, even), Err(Refusal::Record), "{done} {state:?}");
            assert_eq!(record(odd, even + 1), Err(Refusal::Record), "{done} {state:?}");
        }
    }
}
