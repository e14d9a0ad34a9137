//! The opening crusher.

use std::cmp::Ordering;

use oracle::gen::{self, Rng, Roads, CLOSE_PAIRS};
use oracle::roads::{compare, exact_time, float_time};
use oracle::*;

fn ask(lists: &Roads) -> Result<u8, u8> {
    let exact = opening(&lists.lengths, &lists.metres, &lists.seconds);
    assert_eq!(fast::opening(&lists.lengths, &lists.metres, &lists.seconds), exact);
    exact
}

/// The order of two roads by their exact times, and by their floats.
fn orders(pair: [(u16, u16, u16); 2]) -> (Ordering, Ordering) {
    let [a, b] = pair;
    let exact = compare(exact_time(a.0, a.1, a.2).unwrap(), exact_time(b.0, b.1, b.2).unwrap());
    let [x, y] = [a, b].map(|r| float_time(r.0, r.1, r.2).unwrap());
    (exact, x.partial_cmp(&y).unwrap())
}

#[test]
fn close_pairs() {
    for pair in CLOSE_PAIRS {
        let (exact, float) = orders(pair);
        assert_eq!(exact, float);
        let first = ask(&Roads::of(&pair));
        let turned = ask(&Roads::of(&[pair[1], pair[0]]));
        match exact {
            Ordering::Less => assert_eq!((first, turned), (Ok(0), Ok(1))),
            Ordering::Equal => assert_eq!((first, turned), (Ok(0), Ok(0))),
            Ordering::Greater => assert_eq!((first, turned), (Ok(1), Ok(0))),
        }
    }
    // The first four pairs differ by 1 in their cross products, the others are equal.
    let cross = |pair: [(u16, u16, u16); 2]| {
        let [a, b] = pair.map(|(l, m, s)| (l as i64 * s as i64, m as i64));
        a.0 * b.1 - b.0 * a.1
    };
    for pair in &CLOSE_PAIRS[..4] {
        assert_eq!(cross(*pair).abs(), 1);
    }
    for pair in &CLOSE_PAIRS[4..] {
        assert_eq!(cross(*pair), 0);
    }
}

#[test]
fn floats_order_as_fractions_do() {
    let mut rng = Rng::new(41);
    let mut closest = u64::MAX;
    for _ in 0..2_000 {
        let pair = gen::near_tie(&mut rng);
        let (exact, float) = orders(pair);
        assert_ne!(exact, Ordering::Equal);
        assert_eq!(exact, float, "{pair:?}");
        let [a, b] = pair.map(|(l, m, s)| (l as u64 * s as u64, m as u64));
        closest = closest.min((a.0 * b.1).abs_diff(b.0 * a.1));
    }
    assert!(closest < 100, "{closest}");
    let mut equal = 0;
    for _ in 0..100_000 {
        let pair = [gen::road(&mut rng), gen::road(&mut rng)];
        if pair.iter().all(|road| exact_time(road.0, road.1, road.2).is_some()) {
            let (exact, float) = orders(pair);
            assert_eq!(exact, float, "{pair:?}");
            equal += (exact == Ordering::Equal) as usize;
        }
    }
    assert!(equal > 10);
}

#[test]
fn random_roads() {
    let mut rng = Rng::new(42);
    let mut answers = [0; 16];
    let mut ties = 0;
    for _ in 0..20_000 {
        let lists = gen::roads(&mut rng);
        let best = ask(&lists).unwrap() as usize;
        answers[best] += 1;
        let time = |k: usize| exact_time(lists.lengths[k], lists.metres[k], lists.seconds[k]);
        let least = time(best).unwrap();
        for k in 0..lists.lengths.len() {
            if let Some(other) = time(k) {
                let order = compare(least, other);
                assert!(order == Ordering::Less || order == Ordering::Equal && best <= k);
                ties += (order == Ordering::Equal && k != best) as usize;
            }
        }
    }
    assert!(answers.iter().all(|count| *count > 20), "{answers:?}");
    assert!(ties > 1_000, "{ties}");
}

#[test]
fn roads_meet_their_refusals() {
    let mut rng = Rng::new(43);
    for k in 0..8_000 {
        let refusal = 10 + (k % 4) as u8;
        let lists = gen::refused_roads(&mut rng, refusal);
        assert_eq!(ask(&lists), Err(refusal), "{lists:?}");
    }
}

#[test]
fn refusals_are_asked_over_all_roads_in_order() {
    let ask = |roads: &[(u16, u16, u16)]| ask(&Roads::of(roads));
    assert_eq!(ask(&[]), Err(10));
    assert_eq!(ask(&[(1, 1, 1); 16]), Ok(0));
    assert_eq!(ask(&[(1, 1, 1); 17]), Err(10));
    assert_eq!(opening(&[1, 1], &[1, 1], &[1]), Err(10));
    assert_eq!(opening(&[1, 1], &[1], &[1, 1]), Err(10));
    assert_eq!(opening(&[1], &[1, 1], &[1, 1]), Err(10));
    assert_eq!(opening(&[], &[1], &[1]), Err(10));
    // 11 of the second road before 12 of the first; idle roads included.
    assert_eq!(ask(&[(5, 1, 0), (5, 0, 3601)]), Err(11));
    assert_eq!(ask(&[(5, 0, 3600), (5, 1, 3600)]), Ok(1));
    // 12 of the second road before 13 could be asked.
    assert_eq!(ask(&[(5, 0, 0), (5, 1, 0)]), Err(12));
    assert_eq!(ask(&[(5, 0, 0), (5, 0, 40)]), Err(13));
}

#[test]
fn a_road_of_length_0_takes_0_seconds_idle_or_not() {
    let ask = |roads: &[(u16, u16, u16)]| ask(&Roads::of(roads));
    for (metres, seconds) in [(0, 0), (0, 40), (0, 3_600), (1, 1), (65_535, 3_600)] {
        let time = exact_time(0, metres, seconds).unwrap();
        assert_eq!((time.product, time.metres), (0, 1));
        assert_eq!(float_time(0, metres, seconds).map(f64::to_bits), Some(0));
    }
    assert_eq!(ask(&[(0, 0, 40)]), Ok(0));
    assert_eq!(ask(&[(900, 300, 60), (0, 0, 0)]), Ok(1));
    assert_eq!(ask(&[(0, 0, 0), (65_535, 1, 3_600)]), Ok(0));
    assert_eq!(ask(&[(1, 65_535, 1), (0, 1, 3_600)]), Ok(1));
    // Two of them: the lower number, whichever is idle.
    assert_eq!(ask(&[(900, 300, 60), (0, 0, 40), (0, 5, 60)]), Ok(1));
    assert_eq!(ask(&[(900, 300, 60), (0, 5, 60), (0, 0, 0)]), Ok(1));
    assert_eq!(ask(&[(0, 0, 0); 16]), Ok(0));
    // 11 and 12 come first, of a road of length 0 as of all others.
    assert_eq!(ask(&[(0, 0, 3_601)]), Err(11));
    assert_eq!(ask(&[(0, 5, 0)]), Err(12));
    assert_eq!(ask(&[(0, 5, 0), (0, 0, 3_601)]), Err(11));
    assert_eq!(ask(&[(0, 0, 0), (500, 7, 0)]), Err(12));
    assert_eq!(ask(&[(500, 7, 0)]), Err(12));
    // 13 only where every road is idle and longer than 0.
    assert_eq!(ask(&[(500, 0, 40), (0, 0, 0)]), Ok(1));
    assert_eq!(ask(&[(500, 0, 40), (1, 0, 0)]), Err(13));
}

#[test]
fn the_lowest_road_of_length_0_is_the_opening() {
    let mut rng = Rng::new(44);
    let (mut roads, mut of_length_0, mut without) = (0, 0, 0);
    let (mut idle, mut not_first) = (0, 0);
    for _ in 0..20_000 {
        let lists = gen::roads(&mut rng);
        let here = lists.lengths.iter().filter(|length| **length == 0).count();
        roads += lists.lengths.len();
        of_length_0 += here;
        without += (here == 0) as usize;
        if let Some(k) = lists.lengths.iter().position(|length| *length == 0) {
            assert_eq!(ask(&lists), Ok(k as u8), "{lists:?}");
            idle += (lists.metres[k] == 0) as usize;
            not_first += (k > 0) as usize;
        }
    }
    // One road of five has length 0, and many of these are idle.
    assert!(5 * of_length_0 >= roads, "{of_length_0} of {roads}");
    assert!(idle > 3_000 && not_first > 3_000, "{idle} {not_first}");
    assert!(without > 8_000, "{without}");
}

/// Every list of one to three roads of small numbers, by a reading of its own:
/// the times as fractions of one common denominator.
#[test]
fn every_list_of_small_roads() {
    let mut met = [0; 14];
    for list in gen::small_roads() {
        let answer = ask(&Roads::of(&list));
        assert_eq!(answer, by_halves(&list), "{list:?}");
        met[answer.map_or_else(usize::from, usize::from)] += 1;
    }
    assert_eq!(met.iter().sum::<usize>(), 36 + 36 * 36 + 36 * 36 * 36);
    for answer in [0, 1, 2, 11, 12, 13] {
        assert!(met[answer] > 100, "{met:?}");
    }
}

/// With metres up to 2, twice the seconds of every road is a whole number.
fn by_halves(roads: &[(u16, u16, u16)]) -> Result<u8, u8> {
    if roads.iter().any(|road| road.2 == 3_601) {
        return Err(11);
    }
    if roads.iter().any(|road| road.1 != 0 && road.2 == 0) {
        return Err(12);
    }
    let halves = |k: &usize| match roads[*k] {
        (0, _, _) => Some(0),
        (_, 0, _) => None,
        (length, metres, seconds) => Some(length as u32 * seconds as u32 * (2 / metres as u32)),
    };
    let least = (0..roads.len()).filter(|k| halves(k).is_some()).min_by_key(halves);
    least.map(|k| k as u8).ok_or(13)
}
