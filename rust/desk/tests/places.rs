//! Where a recording is wrong: fixed cases of the scope paper, and damaged recordings against the independent reading.

use desk::explain::{explained, Field, Finding, Header, Place};
use oracle::gen::{self, Rng, FULL, SMALL, TINY};
use oracle::recording::bit;
use oracle::Cycle::TwoRound;

const C2: [u8; 6] = [0x08, 0x02, 0x35, 0x31, 0x80, 0x00];

/// The text of a refused recording.
fn words(recording: &[u8]) -> String {
    let (text, refusal) = explained(recording).unwrap();
    assert!(refusal.is_some());
    text
}

#[test]
fn c8_the_last_byte_cut_off() {
    // 64 bits: header 16, openings 8, four rounds of 10. Byte 7 begins with bit 56, the third bit of round 4.
    let recording = [0x08, 0x04, 0x35, 0x30, 0x00, 0x03, 0x00];
    let header = Header { trucks: 2, rounds: 4 };
    assert_eq!(Finding::of(&recording), Finding::Length { header, bytes: 7 });
    assert_eq!(
        words(&recording),
        "refused 4: the recording's length is not the one that its numbers of trucks and rounds fix\n\
         2 trucks and 4 rounds take 8 bytes (64 bits), but there are 7; 1 byte short: it breaks off at offset 7, before \
         round 4, the active bit of truck 0\n"
    );
}

#[test]
fn c9_an_end_bit() {
    // 44 bits, so that the last four bits of byte 5 are left over.
    let recording = [0x08, 0x02, 0x35, 0x31, 0x80, 0x01];
    assert_eq!(
        words(&recording),
        "refused 5: a bit left over at the end of the recording's last byte is 1\n\
         the fields end after 44 bits, and the bits after them must be 0; the first that is 1 is the bit worth 0x01 of \
         the byte at offset 5, which is 0x01\n"
    );
    let mut all = C2;
    all[5] = 0x0F;
    assert!(words(&all).contains("the bit worth 0x08 of the byte at offset 5, which is 0x0f"));
}

#[test]
fn c10_an_own_bit() {
    let recording = [0x08, 0x02, 0x35, 0x33, 0x80, 0x00];
    let place = Place { offset: 3, worth: 0x02, byte: 0x33 };
    assert_eq!(Finding::of(&recording), Finding::OwnLoss { round: 1, truck: 0, place });
    assert_eq!(
        words(&recording),
        "refused 6 round 1 truck 0: a truck's own loss bit is 1, but a truck always hears itself\n\
         the first one is in round 1, in the row of truck 0: the bit worth 0x02 of the byte at offset 3, which is 0x33\n"
    );
}

#[test]
fn counts_out_of_range_and_no_counts() {
    assert!(words(&[]).ends_with("\n0 bytes, but the numbers of trucks and rounds alone take 2\n"));
    assert!(words(&[8]).ends_with("\n1 byte, but the numbers of trucks and rounds alone take 2\n"));
    // C6 and C7: 33 trucks, 401 rounds.
    assert!(words(&[0x84, 0x00]).contains("reads 33; it must read 1 to 32"));
    assert!(words(&[0x05, 0x91]).contains("reads 401; it must read 0 to 400"));
    assert!(words(&[0x00, 0x05]).contains("reads 0; it must read 1 to 32"));
}

#[test]
fn a_longer_recording_than_any() {
    // 32 trucks and 400 rounds take 448,144 bits, which is 56,018 bytes.
    let mut recording = vec![0x81, 0x90];
    recording.resize(56_019, 0);
    assert_eq!(
        words(&recording).lines().nth(1).unwrap(),
        "32 trucks and 400 rounds take 56,018 bytes (448,144 bits), but there are 56,019 or more; 1 byte or more too \
         long: it should end before offset 56,018"
    );
}

#[test]
fn an_accepted_recording_says_its_counts() {
    let (text, refusal) = explained(&C2).unwrap();
    assert_eq!(refusal, None);
    assert_eq!(
        text,
        "accepted: 2 trucks, 2 rounds\n6 bytes; the fields take 44 bits, 4 left over\n\
         sent 2 proposals and 0 vetoes, missed 2 messages\nmarks 0, of these false 0\n\
         decided 2, stopped 0, running 0\n"
    );
}

/// A place by the independent reading's way of counting bits.
fn at(recording: &[u8], place: usize) -> Place {
    let (offset, worth) = (place / 8, 1 << (7 - place % 8));
    Place { offset, worth, byte: recording[offset] }
}

/// What must be found in a recording of which the independent reading says `number`.
fn expected(recording: &[u8], number: u8) -> Finding {
    let bytes = recording.len();
    if number == 1 {
        return Finding::Short { bytes };
    }
    let trucks = oracle::recording::number(recording, 0, 6);
    let rounds = oracle::recording::number(recording, 6, 10);
    let header = Header { trucks, rounds };
    let places = oracle::Header { n: trucks, rounds };
    match number {
        0 => Finding::Sound(header),
        2 => Finding::Trucks(header),
        3 => Finding::Rounds(header),
        4 => Finding::Length { header, bytes },
        5 => {
            let first = (places.total_bits()..8 * bytes).find(|&place| bit(recording, place));
            Finding::EndBit { header, place: at(recording, first.unwrap()) }
        }
        _ => {
            for round in 1..=rounds {
                for truck in 0..trucks {
                    let own = places.loss_place(round - 1, truck, truck);
                    if bit(recording, own) {
                        return Finding::OwnLoss { round, truck, place: at(recording, own) };
                    }
                }
            }
            panic!("no own bit")
        }
    }
}

/// The explanation of any bytes against the independent reading.
fn hold(recording: &[u8]) -> u8 {
    let number = oracle::check(recording).err().unwrap_or(0);
    assert_eq!(Finding::of(recording), expected(recording, number));
    let (text, refusal) = explained(recording).unwrap();
    assert_eq!(refusal.map_or(0, |refusal| refusal.number()), number);
    let start = match (number, oracle::own_bit(recording)) {
        (0, _) => "accepted: ".to_string(),
        (_, None) => format!("refused {number}: "),
        (_, Some(own)) => format!("refused 6 round {} truck {}: ", own.round, own.truck),
    };
    assert!(text.starts_with(&start), "{text}");
    number
}

#[test]
fn every_refusal_has_its_place() {
    let mut rng = Rng::new(0x91AC);
    for k in 0..3_000 {
        let limits = if k % 500 == 0 { FULL } else { SMALL };
        let refusal = (k % 6) as u8 + 1;
        let damaged = gen::damaged(&mut rng, limits, refusal);
        assert_eq!(hold(&damaged.bytes), refusal, "{}", damaged.how);
    }
}

#[test]
fn any_bytes_are_explained() {
    let mut rng = Rng::new(0xB17E);
    let mut met = [0; 7];
    for _ in 0..20_000 {
        let mut bytes = gen::recording(TwoRound, &mut rng, TINY);
        match rng.below(4) {
            0 => bytes = (0..rng.below(60)).map(|_| rng.next_u64() as u8).collect(),
            1 => bytes.truncate(rng.below(bytes.len() + 1)),
            2 => {
                let at = rng.below(bytes.len());
                bytes[at] ^= 1 << rng.below(8);
            }
            _ => {}
        }
        met[usize::from(hold(&bytes))] += 1;
    }
    assert!(met.iter().all(|count| *count > 50), "{met:?}");
}

#[test]
fn every_bit_has_its_field() {
    for n in [1, 2, 3, 32] {
        let (header, places) = (Header { trucks: n, rounds: 3 }, oracle::Header { n, rounds: 3 });
        for truck in 0..n {
            for k in 0..4 {
                let place = places.opening_place(truck) + k;
                assert_eq!(header.field(place), Field::Opening { truck });
            }
        }
        for (index, truck) in (0..3).flat_map(|index| (0..n).map(move |truck| (index, truck))) {
            let round = index + 1;
            let flag = |kind: usize| header.field(places.flag_place(index, kind, truck));
            assert_eq!(flag(0), Field::Bit { round, kind: "stop", truck });
            assert_eq!(flag(1), Field::Bit { round, kind: "active", truck });
            assert_eq!(flag(2), Field::Bit { round, kind: "mark", truck });
            for sender in 0..n {
                let place = places.loss_place(index, truck, sender);
                assert_eq!(header.field(place), Field::Loss { round, truck, sender });
            }
        }
        assert_eq!(header.bits(), places.total_bits());
        assert_eq!(header.bytes(), places.total_bytes());
    }
}
