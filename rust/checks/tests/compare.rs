//! The library compared with the independent reading, on inputs from fixed seeds: calls that both cycles have, each cycle with
//! a seed and a number of cases of its own, and calls that know no cycle or only that of two rounds. compare_six.rs has what
//! is asked of six rounds alone.

use checks::same::{self, FILL};
use checks::steps::{a_round, EXPORTED};
use checks::{own_loss_number, times};
use oracle::bytes::{place_of, record_bytes, RECORD};
use oracle::gen::{self, Asked, Limits, Rng, FULL, SMALL, TINY};
use oracle::Cycle::{self, SixRound, TwoRound};
use oracle::{lists, marks, Header, Plain, State};

/// Mostly tiny recordings, some small ones, now and then one of any size.
fn mixed(cycle: Cycle, k: usize) -> Limits {
    match k {
        k if k % 400 == 0 => FULL,
        k if k % 8 == 0 => SMALL,
        _ => gen::tiny(cycle),
    }
}

/// Mostly tiny recordings, and each tenth a small one.
fn small(cycle: Cycle, k: usize) -> Limits {
    match k % 10 {
        0 => SMALL,
        _ => gen::tiny(cycle),
    }
}

/// Running and grading of any bytes in a cycle, accepted or not, and in two rounds all else that is done with a recording.
fn whole(cycle: Cycle, bytes: &[u8]) -> u32 {
    same::grade(cycle, bytes);
    match cycle {
        TwoRound => whole_of_two(bytes),
        SixRound => same::run(cycle, bytes),
    }
}

/// Running, listing and reading of any bytes, accepted or not, with the buffers around what is written.
fn whole_of_two(bytes: &[u8]) -> u32 {
    let number = same::run(TwoRound, bytes);

    let text = oracle::listing(bytes);
    let mut buf = [FILL; 1761];
    let mut written = 77;
    assert_eq!(checks::list(bytes, &mut buf, &mut written), number);
    if number == 0 {
        assert_eq!(&buf[..written], text.as_bytes());
        assert!(buf[written..].iter().all(|&b| b == FILL));
    } else {
        assert!(written == 77 && buf.iter().all(|&b| b == FILL));
    }

    let own_bit = oracle::own_bit(bytes);
    assert_eq!(own_bit.is_some(), number == 6);
    assert_eq!(checks::recording_own_loss(bytes), own_loss_number(own_bit));

    read_into(bytes, 40, 420 * 35);
    number
}

/// Reading with buffers of these lengths.
fn read_into(bytes: &[u8], openings: usize, words: usize) {
    let mut expected = (vec![FILL; openings], vec![0xDEAD_BEEF; words]);
    let mut found = expected.clone();
    let (mut n, mut rounds) = (1234, 5678);
    let number = checks::read(bytes, &mut found.0, &mut found.1, &mut n, &mut rounds);
    match oracle::read_into(bytes, &mut expected.0, &mut expected.1) {
        Ok(h) => assert_eq!((number, n, rounds), (0, h.n as u32, h.rounds as u32)),
        Err(k) => assert_eq!((number, n, rounds), (u32::from(k), 1234, 5678)),
    }
    assert_eq!(found, expected);
}

/// Writing the plain form of a recording gives it back.
fn written_back(plain: &Plain, bytes: &[u8]) {
    let mut back = vec![FILL; bytes.len() + 2];
    let mut written = 0;
    let (n, rounds) = (plain.n as u32, plain.rounds as u32);
    let number = checks::write(n, rounds, &plain.openings, &plain.words, &mut back, &mut written);
    assert_eq!((number, written), (0, bytes.len()));
    assert_eq!(back[..written], bytes[..]);
    assert_eq!(back[written..], [FILL; 2]);
}

#[test]
fn accepted_recordings() {
    for (cycle, seed, count) in [(TwoRound, 1, 120_000), (SixRound, 101, 40_000)] {
        let mut rng = Rng::new(seed);
        for k in 0..times(count) {
            let plain = gen::plain(cycle, &mut rng, mixed(cycle, k));
            let bytes = gen::bytes_of(&plain);
            assert_eq!(whole(cycle, &bytes), 0);
            written_back(&plain, &bytes);
            // the calls of the other cycle on the same recording
            if k % 8 == 0 {
                let other = if cycle == TwoRound { SixRound } else { TwoRound };
                assert_eq!(same::run(other, &bytes), 0);
                same::grade(other, &bytes);
            }
        }
    }
}

#[test]
fn largest_recordings() {
    for (cycle, seed) in [(TwoRound, 2), (SixRound, 102)] {
        let mut rng = Rng::new(seed);
        for _ in 0..times(20) {
            assert_eq!(whole(cycle, &gen::largest(cycle, &mut rng)), 0);
        }
    }
}

/// Every size that takes at most 24 bytes: random recordings, one of them with each bit changed in turn, and cut or filled up to each length.
#[test]
fn recordings_of_0_to_24_bytes() {
    let mut rng = Rng::new(15);
    let mut lengths = [0; 25];
    for n in 1..=32 {
        for header in (0..).map(|rounds| Header { n, rounds }).take_while(|h| h.total_bytes() <= 24)
        {
            for _ in 0..times(10) {
                whole(TwoRound, &gen::bytes_of(&gen::plain_of_size(TwoRound, &mut rng, header)));
            }
            let bytes = gen::bytes_of(&gen::plain_of_size(TwoRound, &mut rng, header));
            lengths[bytes.len()] += 1;
            changed(&bytes, 0..8 * bytes.len());
            for length in 0..=24 {
                let mut other = bytes.clone();
                other.resize(length, 0);
                whole(TwoRound, &other);
            }
        }
    }
    // the smallest recording has 20 bits
    assert!(lengths[..3].iter().all(|k| *k == 0) && lengths[3..].iter().all(|k| *k > 0));
}

/// A recording with each bit of a range changed in turn.
fn changed(bytes: &[u8], places: std::ops::Range<usize>) {
    for place in places {
        let mut other = bytes.to_vec();
        other[place / 8] ^= 0x80 >> (place % 8);
        whole(TwoRound, &other);
    }
}

/// The last eight bytes of largest recordings, of 32 trucks and of 31, which leave bits over: each bit changed in turn.
#[test]
fn last_bytes_of_largest_recordings() {
    let mut rng = Rng::new(16);
    for n in [32, 31] {
        let bytes =
            gen::bytes_of(&gen::plain_of_size(TwoRound, &mut rng, Header { n, rounds: 400 }));
        changed(&bytes, 8 * (bytes.len() - 8)..8 * bytes.len());
    }
}

#[test]
fn damaged_recordings() {
    for (cycle, seed, count) in [(TwoRound, 3, 60_000), (SixRound, 104, 20_000)] {
        let mut rng = Rng::new(seed);
        for k in 0..times(count) {
            let refusal = 1 + (k % 6) as u8;
            let damaged = gen::damaged(&mut rng, mixed(cycle, k / 6), refusal);
            assert_eq!(damaged.refusal, refusal);
            assert_eq!(whole(cycle, &damaged.bytes), u32::from(refusal), "{}", damaged.how);
        }
    }
}

/// The largest sizes with own loss bits in few places: read, written, and each round stepped after some others.
#[test]
fn own_bits_of_largest_sizes() {
    let mut rng = Rng::new(17);
    for (n, rounds) in [(1, 400), (31, 400), (32, 1), (32, 400)] {
        let header = Header { n, rounds };
        for k in 0..times(30) {
            let mut plain = gen::plain_of_size(TwoRound, &mut rng, header);
            let (last, any) = (rounds - 1, rng.below(rounds));
            let index = rng.pick(&[0, any, last]);
            for _ in 0..=k % 4 {
                let (later, any) = (rng.within(index, last), rng.below(n));
                let truck = rng.pick(&[0, any, n - 1]);
                plain.words[later * (3 + n) + 3 + truck] |= 1 << truck;
            }
            let named =
                oracle::write_own_bit(n as u64, rounds as u64, &plain.openings, &plain.words);
            let bytes = oracle::recording::pack(header, &plain.openings, &plain.words);
            assert_eq!(oracle::own_bit(&bytes), named);
            whole(TwoRound, &bytes);
            let found =
                checks::write_own_loss(n as u32, rounds as u32, &plain.openings, &plain.words);
            assert_eq!(found, own_loss_number(named));
            let mut fleet = gen::good_record(TwoRound, &mut rng, n, 0);
            for done in [0, 1, 399, 400] {
                fleet.done = done;
                step_both(&fleet, plain.round(usize::from(named.unwrap().round)));
            }
        }
    }
}

/// One round, with numbers of trucks and rounds within the limits and outside them.
#[test]
fn own_bits_of_one_round() {
    let mut rng = Rng::new(18);
    let mut named = 0;
    for k in 0..times(30_000) {
        let n = rng.within(1, 32);
        let words =
            if k % 3 == 0 { first_round(&mut rng, n) } else { gen::bad_round(&mut rng, n).0 };
        let (any, other) = (rng.within(1, 400) as u32, rng.next_u64() as u32);
        let round = rng.pick(&[1, any, any, 399, 400, 0, 401, 65_536 + any, other]);
        let n = n as u32;
        let trucks = if k % 5 == 0 { rng.pick(&[0, 33, 256 + n, other]) } else { n };
        let expected = oracle::round_own_bit(trucks, round, &words);
        assert_eq!(checks::round_own_loss(trucks, round, &words), own_loss_number(expected));
        named += usize::from(expected.is_some());
    }
    assert!(named > 1000);
}

#[test]
fn any_short_bytes() {
    for (cycle, seed, count) in [(TwoRound, 4, 20_000), (SixRound, 105, 7_000)] {
        let mut rng = Rng::new(seed);
        for header in 0..=0xFFFFu16 {
            whole(cycle, &header.to_be_bytes());
        }
        for _ in 0..times(count) {
            let length = rng.within(0, 12);
            let bytes: Vec<u8> = (0..length).map(|_| rng.next_u64() as u8).collect();
            whole(cycle, &bytes);
        }
    }
}

#[test]
fn buffers_for_reading() {
    let mut rng = Rng::new(5);
    for _ in 0..times(20_000) {
        let bytes = gen::recording(TwoRound, &mut rng, TINY);
        let header = oracle::check(&bytes).unwrap();
        let (openings, words) = gen::reading_buffers(&mut rng, header);
        read_into(&bytes, openings, words);
    }
}

#[test]
fn writing() {
    let mut rng = Rng::new(6);
    let kinds = [0, 2, 3, 7, 8, 6, 9];
    for k in 0..times(42_000) {
        let limits = if k % 100 == 0 { SMALL } else { TINY };
        let w = gen::writing(&mut rng, limits, kinds[k % 7]);
        let mut expected = vec![FILL; w.buffer];
        let mut found = expected.clone();
        let mut written = 4321;
        let trucks = u32::try_from(w.n).unwrap_or(u32::MAX);
        let rounds = u32::try_from(w.rounds).unwrap_or(u32::MAX);
        let number = checks::write(trucks, rounds, &w.openings, &w.words, &mut found, &mut written);
        match oracle::write_into(w.n, w.rounds, &w.openings, &w.words, &mut expected) {
            Ok(m) => assert_eq!((number, written), (0, m)),
            Err(r) => assert_eq!((number, written), (u32::from(r), 4321)),
        }
        assert_eq!(number, u32::from(w.refusal));
        assert_eq!(found, expected);
        let own_bit = oracle::write_own_bit(w.n, w.rounds, &w.openings, &w.words);
        assert_eq!(own_bit.is_some(), number == 6);
        let own_loss = checks::write_own_loss(trucks, rounds, &w.openings, &w.words);
        assert_eq!(own_loss, own_loss_number(own_bit));
    }
}

/// Round 1 of so many trucks.
fn first_round(rng: &mut Rng, n: usize) -> Vec<u32> {
    let habits = gen::habits(rng);
    gen::round(TwoRound, rng, n, 1, &habits)
}

/// One step on both sides, from the same record.
fn step_both(f: &oracle::Fleet, words: &[u32]) -> oracle::Fleet {
    same::step(TwoRound, f, words).1
}

#[test]
fn lists_of_steps() {
    for (cycle, seed, count) in [(TwoRound, 7, 20_000), (SixRound, 107, 7_000)] {
        EXPORTED.lists_of_steps(cycle, seed, count, |list, fleet| {
            // stepped or run, the same record
            let bytes = gen::bytes_of(&lists::recording_of(list));
            let mut d = [FILL; RECORD];
            assert_eq!(checks::run(cycle, &bytes, &mut d), 0);
            assert_eq!(d, record_bytes(fleet));
        });
    }
}

#[test]
fn starts() {
    EXPORTED.starts(8, 9_000);
}

#[test]
fn records_handed_in() {
    for (cycle, seed, few, many, conditions) in
        [(TwoRound, 9, 200, 20_000, 33), (SixRound, 109, 70, 7_000, 19)]
    {
        assert_eq!(EXPORTED.records_handed_in(cycle, seed, few, many).len(), conditions);
    }
}

/// The counts of what the library runs are the rounds in which the rules made a truck send, and its listing's totals are their sums.
#[test]
fn counts_of_messages_sent() {
    let mut rng = Rng::new(19);
    for k in 0..times(4_000) {
        let plain = gen::plain(TwoRound, &mut rng, mixed(TwoRound, k));
        let bytes = gen::bytes_of(&plain);
        let mut d = [FILL; RECORD];
        assert_eq!(checks::run(TwoRound, &bytes, &mut d), 0);
        let (mut proposals, mut vetoes) = (0, 0);
        for (i, sent) in lists::sent_by_the_rules(&plain).into_iter().enumerate() {
            let place = &d[place_of(i)..];
            assert_eq!((place[7], place[8], place[9]), (sent.proposals, sent.vetoes, 0));
            proposals += u32::from(place[7]);
            vetoes += u32::from(place[8]);
        }
        let mut text = [FILL; 1761];
        let mut written = 0;
        assert_eq!(checks::list(&bytes, &mut text, &mut written), 0);
        let last = format!("\nsent {proposals} vetoes {vetoes}\n");
        assert!(text[..written].ends_with(last.as_bytes()));
    }
}

/// Counts at the limits and one above them, after every number of rounds done and in every state.
#[test]
fn counts_at_their_limits() {
    for done in 0..=400 {
        let most = gen::most_sent(done);
        for state in [State::Running, State::Stopped(1), State::Decided(2)] {
            for (more_proposals, more_vetoes) in [(0, 0), (1, 0), (0, 1)] {
                let (_, mut f) = oracle::start(2, &[3, 5]);
                f.done = done;
                f.trucks[1].state = state;
                f.trucks[1].sent.proposals = most.proposals + more_proposals;
                f.trucks[1].sent.vetoes = most.vetoes + more_vetoes;
                step_both(&f, &[0, 0b11, 0, 0, 0]);
                // the same in a place that is not read
                f.n = 1;
                step_both(&f, &[0, 1, 0, 0]);
            }
        }
    }
}

#[test]
fn damaged_record_bytes() {
    for (cycle, seed, count) in [(TwoRound, 10, 20_000), (SixRound, 111, 7_000)] {
        EXPORTED.damaged_record_bytes(cycle, seed, count);
    }
}

/// Runs of recordings with the marks asked for agree, and lists of steps made from one of `every` so many, with refused steps
/// among them, come to the same record. `kept` says whether a recording has such marks. Answers how often several trucks
/// decided, in how many of these the marks were not majority complete, and how many steps were refused.
fn agreement(
    cycle: Cycle,
    (seed, count, every): (u64, usize, usize),
    asked: Asked,
    kept: fn(&Plain) -> bool,
) -> [usize; 3] {
    let mut rng = Rng::new(seed);
    let [mut several, mut weaker, mut refused] = [0; 3];
    for k in 0..times(count) {
        let plain = gen::with_marks(cycle, &mut rng, small(cycle, k), asked);
        assert!(kept(&plain));
        let mut ran = [0; RECORD];
        assert_eq!(checks::run(cycle, &gen::bytes_of(&plain), &mut ran), 0);
        if same::agrees(&ran, &plain.openings) {
            several += 1;
            weaker += usize::from(!marks::majority_complete(cycle, &plain));
        }
        if k % every == 0 {
            let list = gen::list_around(&mut rng, &plain, 40);
            let mut stepped = [0; RECORD];
            assert_eq!(checks::start(plain.n as u32, &plain.openings, &mut stepped), 0);
            for words in &list.steps {
                refused += usize::from(checks::step(cycle, &mut stepped, words) != 0);
            }
            assert_eq!(stepped, ran);
        }
    }
    [several, weaker, refused]
}

#[test]
fn agreement_of_the_library() {
    let mut rng = Rng::new(11);
    let mut several = 0;
    for k in 0..times(20_000) {
        let plain = gen::with_marks(TwoRound, &mut rng, small(TwoRound, k), gen::MAJORITY);
        assert!(marks::majority_complete(TwoRound, &plain));
        let mut d = [0; RECORD];
        assert_eq!(checks::run(TwoRound, &gen::bytes_of(&plain), &mut d), 0);
        several += usize::from(same::agrees(&d, &plain.openings));
    }
    assert!(several > 1000);
}

/// In two rounds: majority complete in odd rounds and zero complete in even ones.
#[test]
fn agreement_with_mixed_marks() {
    let met = agreement(TwoRound, (14, 20_000, 1), gen::MIXED, marks::mixed);
    assert!(met[0] > 1000 && met[1] > 200 && met[2] > 1000, "{met:?}");
}

/// In six rounds: zero complete in each.
#[test]
fn agreement_with_zero_complete_marks() {
    let zero = |plain: &Plain| marks::zero_complete(SixRound, plain);
    let met = agreement(SixRound, (113, 14_000, 2), gen::ZERO, zero);
    assert!(met[0] > 1000 && met[1] > 200 && met[2] > 1000, "{met:?}");
}

/// Every truck has decided or stopped by the last of the calm rounds. Answers in how many recordings one did only then.
fn deciding(cycle: Cycle, seed: u64, count: usize, asked: Asked) -> usize {
    let mut rng = Rng::new(seed);
    let mut late = 0;
    for k in 0..times(count) {
        let asked = if k % 2 == 0 { asked } else { gen::NONE };
        let calm = gen::calm(cycle, &mut rng, small(cycle, k), asked);
        assert!(oracle::calm(cycle, &calm.plain, calm.s, calm.b));
        let mut d = [0; RECORD];
        assert_eq!(checks::run(cycle, &gen::bytes_of(&calm.plain), &mut d), 0);
        let end = calm.s + cycle.calm_span();
        let mut last = 0;
        for i in 0..calm.plain.n {
            let t = &d[place_of(i)..];
            let round = u64::from(u16::from_le_bytes([t[5], t[6]]));
            assert!(t[4] != 0 && round <= end);
            last = last.max(round);
        }
        late += usize::from(last == end);
    }
    late
}

#[test]
fn deciding_in_calm_rounds() {
    let late = deciding(TwoRound, 12, 10_000, gen::MAJORITY);
    assert!(late > 50, "{late}");
}

#[test]
fn deciding_in_eleven_calm_rounds() {
    let late = deciding(SixRound, 114, 5_000, gen::ZERO);
    assert!(late > 50, "{late}");
}

/// The library answers road lists as the independent reading does; the crusher, where they are accepted.
fn check_roads(r: &gen::Roads) -> Option<u8> {
    let mut crusher = 99;
    let number = checks::opening(&r.lengths, &r.metres, &r.seconds, &mut crusher);
    match oracle::opening(&r.lengths, &r.metres, &r.seconds) {
        Ok(k) => assert_eq!((number, crusher), (0, k), "{r:?}"),
        Err(k) => assert_eq!((number, crusher), (u32::from(k), 99), "{r:?}"),
    }
    (number == 0).then_some(crusher)
}

#[test]
fn roads() {
    let mut rng = Rng::new(13);
    for k in 0..times(60_000) {
        check_roads(&gen::roads(&mut rng));
        check_roads(&gen::refused_roads(&mut rng, 10 + (k % 4) as u8));
        check_roads(&gen::Roads::of(&gen::near_tie(&mut rng)));
    }
    // a tie at every pair of places of 16 roads
    for a in 0..16 {
        for b in a + 1..16 {
            let mut roads = [(60_000, 1, 3_600); 16];
            roads[a] = (1200, 600, 90);
            roads[b] = (900, 300, 60);
            assert_eq!(check_roads(&gen::Roads::of(&roads)), Some(a as u8));
        }
    }
    for pair in gen::CLOSE_PAIRS {
        check_roads(&gen::Roads::of(&pair));
        check_roads(&gen::Roads::of(&[pair[1], pair[0]]));
    }
}

/// Two roads of length 0 at every pair of places of 16, idle or not, the others short or passed over; and every list of small roads.
#[test]
fn roads_of_length_0() {
    let pairs = [[(0, 0, 40), (0, 5, 60)], [(0, 5, 60), (0, 0, 0)], [(0, 0, 0), (0, 0, 0)]];
    for (a, b) in (0..16).flat_map(|a| (a + 1..16).map(move |b| (a, b))) {
        for pair in pairs {
            for other in [(1, 65_535, 1), (1, 0, 0)] {
                let mut roads = [other; 16];
                [roads[a], roads[b]] = pair;
                assert_eq!(check_roads(&gen::Roads::of(&roads)), Some(a as u8));
            }
        }
    }
    for list in gen::small_roads() {
        check_roads(&gen::Roads::of(&list));
    }
}

/// C13: three trucks send, one hears two without a mark.
#[test]
fn case_13() {
    let words = [0, 0b111, 0, 0b100, 0, 0];
    let mut bytes = [0; 64];
    let mut written = 0;
    assert_eq!(checks::write(3, 1, &[1, 1, 1], &words, &mut bytes, &mut written), 0);
    let mut grades = [9; 4];
    assert_eq!(checks::grade(TwoRound, &bytes[..written], &mut grades), 0);
    assert_eq!(grades, [1, 0, 0, 0]);
}

/// A few inputs of each kind, for a run under a memory checker.
#[test]
fn small_set() {
    for (cycle, seed) in [(TwoRound, 14), (SixRound, 115)] {
        let mut rng = Rng::new(seed);
        for k in 0..120 {
            let limits = if k % 40 == 0 { SMALL } else { gen::tiny(cycle) };
            whole(cycle, &gen::recording(cycle, &mut rng, limits));
            whole(cycle, &gen::damaged(&mut rng, gen::tiny(cycle), 1 + (k % 6) as u8).bytes);
            let f = gen::record(cycle, &mut rng);
            let words = a_round(cycle, &mut rng, &f);
            for cycle in Cycle::ALL {
                same::step(cycle, &f, &words);
            }
        }
    }
    for header in [[0x81, 0x90], [0x82, 0x10], [0x00, 0x00], [0xFF, 0xFF]] {
        for cycle in Cycle::ALL {
            whole(cycle, &header);
        }
    }
}
