//! Reading and writing recordings, and refusals 1 to 9 about them.

use std::collections::BTreeMap;

use oracle::gen::{self, Rng, FULL, SMALL, TINY};
use oracle::recording::{bit, set_bit};
use oracle::Cycle::TwoRound;
use oracle::*;

/// A recording read from its bits as text, field after field.
fn read_as_text(bytes: &[u8]) -> Plain {
    let text: String = bytes.iter().map(|byte| format!("{byte:08b}")).collect();
    let mut rest = text.as_str();
    let mut field = |width: usize| {
        let (head, tail) = rest.split_at(width);
        rest = tail;
        head.to_string()
    };
    let value = |text: String| usize::from_str_radix(&text, 2).unwrap();
    let n = value(field(6));
    let rounds = value(field(10));
    let openings = (0..n).map(|_| value(field(4)) as u8).collect();
    let words = (0..rounds * (3 + n))
        .map(|_| {
            // Lowest truck first in the recording, highest first in a number.
            let highest_first: String = field(n).chars().rev().collect();
            value(highest_first) as u32
        })
        .collect();
    Plain { n, rounds, openings, words }
}

#[test]
fn reading_and_writing_are_inverse() {
    let mut rng = Rng::new(1);
    for k in 0..3_000 {
        let limits = if k % 30 == 0 { FULL } else { SMALL };
        let plain = gen::plain(TwoRound, &mut rng, limits);
        let (n, rounds) = (plain.n as u64, plain.rounds as u64);
        let bytes = write(n, rounds, &plain.openings, &plain.words).unwrap();
        assert_eq!(read(&bytes), Ok(plain.clone()));
        assert_eq!(read_as_text(&bytes), plain);
        assert_eq!(fast::read(&bytes), Ok(plain.clone()));
        assert_eq!(fast::write(n, rounds, &plain.openings, &plain.words), Ok(bytes.clone()));
        let again = read(&bytes).unwrap();
        assert_eq!(write(n, rounds, &again.openings, &again.words), Ok(bytes));
    }
}

#[test]
fn the_largest_recording() {
    let bytes = gen::largest(TwoRound, &mut Rng::new(2));
    assert_eq!(bytes.len(), recording::LARGEST);
    assert_eq!(bytes.len(), 56_018);
    assert_eq!(read_as_text(&bytes), read(&bytes).unwrap());
}

#[test]
fn every_size_has_its_length() {
    let zeros = vec![0u8; recording::LARGEST + 1];
    for n in 1..=32usize {
        for rounds in 0..=400usize {
            let bits = 16 + 4 * n + rounds * (3 * n + n * n);
            let length = bits / 8 + (bits % 8 != 0) as usize;
            let mut bytes = zeros[..length + 1].to_vec();
            bytes[0] = (n << 2 | rounds >> 8) as u8;
            bytes[1] = rounds as u8;
            let whole = Ok(Header { n, rounds });
            assert_eq!(fast::check(&bytes[..length]), whole);
            if rounds % 37 == 0 || rounds == 1 {
                assert_eq!(check(&bytes[..length]), whole);
                assert_eq!(check(&bytes[..length - 1]), Err(4));
                assert_eq!(check(&bytes), Err(4));
            }
        }
    }
}

#[test]
fn every_header_is_judged() {
    for first in 0..=255u8 {
        for second in 0..=255u8 {
            let n = first / 4;
            let rounds = (first % 4) as u16 * 256 + second as u16;
            // Two bytes are never enough for n of at least 1.
            let expected = if n == 0 || n > 32 {
                2
            } else if rounds > 400 {
                3
            } else {
                4
            };
            assert_eq!(check(&[first, second]), Err(expected));
            assert_eq!(fast::check(&[first, second]), Err(expected));
        }
    }
}

#[test]
fn each_single_bit_has_one_meaning() {
    let mut rng = Rng::new(3);
    for _ in 0..60 {
        let plain = gen::plain(TwoRound, &mut rng, TINY);
        let bytes = gen::bytes_of(&plain);
        let header = check(&bytes).unwrap();
        for place in 16..8 * bytes.len() {
            let mut changed = bytes.clone();
            changed[place / 8] ^= 0x80 >> (place % 8);
            let own = first_own_bit_in_text(&changed);
            let expected = if place >= header.total_bits() {
                Err(5)
            } else if own.is_some() {
                Err(6)
            } else {
                Ok(read_as_text(&changed))
            };
            assert_eq!(own_bit(&changed), own.filter(|_| expected == Err(6)));
            assert_eq!(read(&changed), expected);
            assert_eq!(fast::read(&changed), expected);
        }
    }
}

/// The own bit that comes first among those that are set, round after round and
/// truck after truck, by the plain words that the text gives.
fn first_own_bit_in_text(bytes: &[u8]) -> Option<OwnBit> {
    let plain = read_as_text(bytes);
    for (index, round) in plain.words.chunks(3 + plain.n).enumerate() {
        for (truck, row) in round[3..].iter().enumerate() {
            if row >> truck & 1 == 1 {
                return Some(OwnBit { round: index as u16 + 1, truck: truck as u8 });
            }
        }
    }
    None
}

#[test]
fn the_own_bit_named_is_the_first() {
    let mut rng = Rng::new(9);
    // How often another one is in an earlier place by truck, or in a later round, or in the same round.
    let (mut lower, mut later, mut beside) = (0, 0, 0);
    for k in 0..2_000 {
        let limits = if k % 100 == 0 { FULL } else { SMALL };
        let bytes = gen::damaged(&mut rng, limits, 6).bytes;
        let first = first_own_bit_in_text(&bytes).unwrap();
        assert_eq!(own_bit(&bytes), Some(first));
        let plain = read_as_text(&bytes);
        let of_round = |index: usize| {
            let words = &plain.words[index * (3 + plain.n)..(index + 1) * (3 + plain.n)];
            (0..plain.n).filter(|i| words[3 + i] >> i & 1 == 1).collect::<Vec<_>>()
        };
        let (index, truck) = (usize::from(first.round) - 1, usize::from(first.truck));
        beside += usize::from(of_round(index).len() > 1);
        let rest: Vec<usize> = (index + 1..plain.rounds).flat_map(of_round).collect();
        later += usize::from(!rest.is_empty());
        lower += usize::from(rest.iter().any(|other| *other < truck));
        let (n, rounds) = (plain.n as u64, plain.rounds as u64);
        assert_eq!(write_own_bit(n, rounds, &plain.openings, &plain.words), Some(first));
        // one round alone, as a step after some others
        let (_, mut fleet) = start(n, &plain.openings);
        fleet.done = rng.pick(&[0, 1, 398, 399]);
        let words = &plain.words[index * (3 + plain.n)..(index + 1) * (3 + plain.n)];
        let named = OwnBit { round: fleet.done + 1, truck: first.truck };
        assert_eq!(step_own_bit(TwoRound, &fleet, words), Some(named));
        fleet.done = 400;
        assert_eq!(step_own_bit(TwoRound, &fleet, words), None);
    }
    assert!(lower > 100 && later > 300 && beside > 100, "{lower} {later} {beside}");
}

#[test]
fn damaged_recordings_meet_their_refusal() {
    let mut rng = Rng::new(4);
    let mut reached = BTreeMap::new();
    for k in 0..3_600 {
        let refusal = (k % 6) as u8 + 1;
        let limits = if k % 100 < 6 { FULL } else { SMALL };
        let damaged = gen::damaged(&mut rng, limits, refusal);
        let (bytes, how) = (&damaged.bytes, damaged.how);
        assert_eq!(check(bytes), Err(refusal), "{how}");
        assert_eq!(read(bytes), Err(refusal), "{how}");
        assert_eq!(run(TwoRound, bytes), (refusal, Fleet::blank()), "{how}");
        assert_eq!(grade(TwoRound, bytes), Err(refusal), "{how}");
        let named = match own_bit(bytes) {
            Some(own) => format!(" round {} truck {}", own.round, own.truck),
            None => String::new(),
        };
        assert_eq!(listing(bytes), format!("refused {refusal}{named}\n"), "{how}");
        assert_eq!(program(bytes), format!("refused {refusal}{named}\n"), "{how}");
        let mut openings = [9; 40];
        let mut words = [9; 50];
        assert_eq!(read_into(bytes, &mut openings, &mut words), Err(refusal), "{how}");
        assert_eq!((openings, words), ([9; 40], [9; 50]));
        *reached.entry((refusal, how)).or_insert(0) += 1;
    }
    // Each way of damaging came up: 2, 3, 2, 5, 3 and 6 ways.
    assert_eq!(reached.len(), 21, "{reached:?}");
}

#[test]
fn reading_fills_lent_buffers() {
    let mut rng = Rng::new(5);
    let mut counts = [0; 2];
    for _ in 0..2_000 {
        let plain = gen::plain(TwoRound, &mut rng, SMALL);
        let bytes = gen::bytes_of(&plain);
        let header = check(&bytes).unwrap();
        let (room, words_room) = gen::reading_buffers(&mut rng, header);
        let mut openings = vec![0xAA; room];
        let mut words = vec![0xDEAD_BEEF; words_room];
        let answer = read_into(&bytes, &mut openings, &mut words);
        let mut fast_openings = vec![0xAA; room];
        let mut fast_words = vec![0xDEAD_BEEF; words_room];
        assert_eq!(fast::read_into(&bytes, &mut fast_openings, &mut fast_words), answer);
        assert_eq!((&fast_openings, &fast_words), (&openings, &words));
        if room < header.n || words_room < header.total_words() {
            assert_eq!(answer, Err(9));
            assert!(openings.iter().all(|o| *o == 0xAA));
            assert!(words.iter().all(|w| *w == 0xDEAD_BEEF));
            counts[0] += 1;
        } else {
            assert_eq!(answer, Ok(header));
            assert_eq!(openings[..header.n], plain.openings);
            assert_eq!(words[..header.total_words()], plain.words);
            assert!(openings[header.n..].iter().all(|o| *o == 0xAA));
            assert!(words[header.total_words()..].iter().all(|w| *w == 0xDEAD_BEEF));
            counts[1] += 1;
        }
    }
    assert!(counts.iter().all(|c| *c > 200), "{counts:?}");
}

#[test]
fn no_rounds_need_no_words() {
    let mut openings = [0; 2];
    let expected = Ok(Header { n: 2, rounds: 0 });
    assert_eq!(read_into(&[0x08, 0x00, 0x35], &mut openings, &mut []), expected);
    assert_eq!(openings, [3, 5]);
}

#[test]
fn writing_meets_its_refusals() {
    let mut rng = Rng::new(6);
    for k in 0..7_000 {
        let refusal = [0, 2, 3, 7, 8, 6, 9][k % 7];
        let limits = if k % 200 < 7 { FULL } else { SMALL };
        let w = gen::writing(&mut rng, limits, refusal);
        let mut buffer = vec![0xA5; w.buffer];
        let answer = write_into(w.n, w.rounds, &w.openings, &w.words, &mut buffer);
        let mut fast_buffer = vec![0xA5; w.buffer];
        let fast_answer = fast::write_into(w.n, w.rounds, &w.openings, &w.words, &mut fast_buffer);
        assert_eq!((&fast_answer, &fast_buffer), (&answer, &buffer));
        let written = write(w.n, w.rounds, &w.openings, &w.words);
        assert_eq!(fast::write(w.n, w.rounds, &w.openings, &w.words), written);
        match refusal {
            0 => {
                let length = answer.unwrap();
                assert_eq!(buffer[..length], written.unwrap());
                assert!(buffer[length..].iter().all(|byte| *byte == 0xA5));
                let back = read(&buffer[..length]).unwrap();
                assert_eq!((back.openings, back.words), (w.openings, w.words));
            }
            _ => {
                assert_eq!(answer, Err(refusal));
                assert!(buffer.iter().all(|byte| *byte == 0xA5));
                assert_eq!(written.err(), if refusal == 9 { None } else { Some(refusal) });
            }
        }
    }
}

#[test]
fn writing_asks_8_of_all_rounds_before_6_of_any() {
    // Own bit in round 1, high bit in round 2.
    let words = [0, 0, 0, 0b01, 0, 0, 0b100, 0, 0, 0];
    assert_eq!(write(2, 2, &[3, 5], &words), Err(8));
    assert_eq!(write_own_bit(2, 2, &[3, 5], &words), None);
    let words = [0, 0, 0, 0b01, 0, 0, 0, 0, 0, 0];
    assert_eq!(write(2, 2, &[3, 5], &words), Err(6));
    let named = write_own_bit(2, 2, &[3, 5], &words);
    assert_eq!(named, Some(OwnBit { round: 1, truck: 0 }));
    assert_eq!(write(2, 2, &[3, 5], &[0; 9]), Err(8));
    assert_eq!(write(2, 2, &[3, 5], &[0; 11]), Err(8));
    assert_eq!(write(2, 2, &[3, 16], &[0; 11]), Err(7));
    assert_eq!(write(2, 2, &[3], &[0; 11]), Err(7));
    assert_eq!(write(2, 401, &[3], &[0; 11]), Err(3));
    assert_eq!(write(33, 401, &[3], &[0; 11]), Err(2));
    assert_eq!(write(0, 0, &[], &[]), Err(2));
    assert_eq!(write(u64::MAX, u64::MAX, &[], &[]), Err(2));
    assert_eq!(write(1, u64::MAX, &[0], &[]), Err(3));
    // For n of 32 no word has a bit too high.
    let mut words = [u32::MAX; 35];
    for (i, row) in words[3..].iter_mut().enumerate() {
        *row &= !(1 << i);
    }
    assert!(write(32, 1, &[0; 32], &words).is_ok());
}

#[test]
fn a_longer_buffer_is_as_good_as_an_exact_one() {
    let words = [0, 0b11, 0, 0b10, 0b01];
    let mut buffer = [7; 6];
    assert_eq!(write_into(2, 1, &[3, 5], &words, &mut buffer[..4]), Err(9));
    assert_eq!(buffer, [7; 6]);
    assert_eq!(write_into(2, 1, &[3, 5], &words, &mut buffer[..5]), Ok(5));
    assert_eq!(buffer, [0x08, 0x01, 0x35, 0x31, 0x80, 7]);
}

#[test]
fn starting_meets_its_refusals() {
    let mut rng = Rng::new(7);
    for k in 0..600 {
        let refusal = [0, 2, 7][k % 3];
        let given = gen::starting(&mut rng, refusal);
        let (number, fleet) = start(given.n, &given.openings);
        assert_eq!(number, refusal);
        if refusal != 0 {
            assert_eq!(fleet, Fleet::blank());
            continue;
        }
        assert_eq!((fleet.n as u64, fleet.done), (given.n, 0));
        for (i, truck) in fleet.trucks.iter().enumerate() {
            let opening = given.openings.get(i).copied().unwrap_or(0);
            assert_eq!(*truck, Truck::opened(opening));
        }
    }
}

#[test]
fn bits_are_set_where_they_are_read() {
    let mut bytes = [0; 3];
    set_bit(&mut bytes, 0);
    set_bit(&mut bytes, 9);
    set_bit(&mut bytes, 23);
    assert_eq!(bytes, [0x80, 0x40, 0x01]);
    assert!((0..24).all(|place| bit(&bytes, place) == [0, 9, 23].contains(&place)));
}
