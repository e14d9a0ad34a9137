//! Road lists, accepted and refused.

use super::chance::Rng;

/// The three road lists.
#[derive(Clone, Debug, Default, PartialEq, Eq)]
pub struct Roads {
    pub lengths: Vec<u16>,
    pub metres: Vec<u16>,
    pub seconds: Vec<u16>,
}

impl Roads {
    /// Roads given as (length, metres, seconds).
    pub fn of(roads: &[(u16, u16, u16)]) -> Roads {
        Roads {
            lengths: roads.iter().map(|r| r.0).collect(),
            metres: roads.iter().map(|r| r.1).collect(),
            seconds: roads.iter().map(|r| r.2).collect(),
        }
    }
}

/// Pairs that differ by 1 in their cross products, or are equal.
pub const CLOSE_PAIRS: [[(u16, u16, u16); 2]; 9] = [
    [(65090, 65341, 3595), (65237, 65525, 3597)],
    [(65187, 65501, 3581), (65072, 65495, 3587)],
    [(65512, 65411, 3572), (65105, 65314, 3589)],
    [(64821, 65347, 3600), (65153, 65481, 3589)],
    [(18972, 31718, 935), (17340, 63436, 2046)],
    [(1520, 6684, 1927), (1558, 6684, 1880)],
    [(17763, 17588, 378), (35154, 52764, 573)],
    [(2825, 54314, 452), (2260, 54314, 565)],
    [(1200, 600, 90), (900, 300, 60)],
];

/// One road in range: of length 0 at times, idle at times, extremes at times.
pub fn road(rng: &mut Rng) -> (u16, u16, u16) {
    let length = match rng.below(12) {
        0..=4 => 0,
        5 => rng.pick(&[1, 65_535]),
        6 => rng.within(1, 100) as u16,
        _ => rng.within(1, 65_535) as u16,
    };
    let metres = match rng.below(6) {
        0 => 0,
        1 => rng.pick(&[1, 65_535]),
        2 => rng.within(1, 100) as u16,
        _ => rng.within(1, 65_535) as u16,
    };
    let least = if metres == 0 { 0 } else { 1 };
    let seconds = match rng.below(5) {
        0 => rng.pick(&[least, 3_600]),
        1 => rng.within(least, 60),
        _ => rng.within(least, 3_600),
    };
    (length, metres, seconds as u16)
}

/// Roads of one and the same exact time, by common factors.
fn equal_roads(rng: &mut Rng, count: usize) -> Vec<(u16, u16, u16)> {
    let (l, m, s) = (rng.within(0, 250), rng.within(1, 250), rng.within(1, 60));
    (0..count)
        .map(|_| {
            let (k, q) = (rng.within(1, 60), rng.within(1, 4));
            let (l, m, s) =
                if rng.chance(128) { (l * k * q, m * k * q, s) } else { (l * q, m * k * q, s * k) };
            (l as u16, m as u16, s as u16)
        })
        .collect()
}

/// Two roads whose exact times lie close together, often closer than one part
/// in 2 to the 36, without being equal.
pub fn near_tie(rng: &mut Rng) -> [(u16, u16, u16); 2] {
    loop {
        let l = rng.within(20_000, 65_535) as u64;
        let m = rng.within(20_000, 65_535) as u64;
        let s = rng.within(1_000, 3_600) as u64;
        let other = rng.within(20_000, 65_535) as u64;
        let product = l * s * other / m + rng.below(2) as u64;
        // The neighbour's product must again be a length times seconds.
        let seconds = (1..=3_600u64).rev().find(|t| product % t == 0 && product / t <= 65_535);
        if let Some(t) = seconds {
            if product * m != l * s * other {
                let a = (l as u16, m as u16, s as u16);
                let b = ((product / t) as u16, other as u16, t as u16);
                return if rng.chance(128) { [a, b] } else { [b, a] };
            }
        }
    }
}

/// Makes a road idle and longer than 0, so that it is passed over.
fn pass_over(road: &mut (u16, u16, u16)) {
    road.0 = road.0.max(1);
    road.1 = 0;
}

/// Roads that are accepted: any, all longer than 0, all idle, with ties, with
/// near ties, one alone, or all passed over but one. One road of five has
/// length 0, in about half of the lists none has.
pub fn roads(rng: &mut Rng) -> Roads {
    let any = rng.within(1, 16);
    let count = rng.pick(&[1, 2, 3, 16, any]);
    let mut list: Vec<_> = (0..count).map(|_| road(rng)).collect();
    match rng.below(9) {
        0 => list = equal_roads(rng, count),
        1 if count >= 2 => {
            let pair = if rng.chance(64) { rng.pick(&CLOSE_PAIRS) } else { near_tie(rng) };
            let (a, b) = two_places(rng, count);
            list.iter_mut().for_each(pass_over);
            list[a] = pair[0];
            list[b] = pair[1];
        }
        2 => {
            let kept = rng.below(count);
            for (k, road) in list.iter_mut().enumerate() {
                if k != kept {
                    pass_over(road);
                }
            }
        }
        3 => {
            let same = equal_roads(rng, count);
            for (k, road) in list.iter_mut().enumerate() {
                if rng.chance(100) {
                    *road = same[k];
                }
            }
        }
        4 => {
            for road in &mut list {
                road.0 = road.0.max(1);
            }
        }
        5 => {
            for road in &mut list {
                road.1 = 0;
            }
        }
        _ => {}
    }
    if list.iter().all(|road| road.0 > 0 && road.1 == 0) {
        let k = rng.below(count);
        list[k] = if rng.chance(128) {
            (0, 0, rng.within(0, 3_600) as u16)
        } else {
            (rng.within(0, 65_535) as u16, rng.within(1, 65_535) as u16, 3_600)
        };
    }
    Roads::of(&list)
}

/// Every list of one to three roads of length and metres up to 2 and seconds of
/// 0, 1, 3,600 or 3,601.
pub fn small_roads() -> impl Iterator<Item = Vec<(u16, u16, u16)>> {
    let road = |k: u16| (k % 3, k / 3 % 3, [0, 1, 3_600, 3_601][k as usize / 9]);
    (1..=3).flat_map(move |count: u32| {
        (0..36u32.pow(count))
            .map(move |list| (0..count).map(|k| road((list / 36u32.pow(k) % 36) as u16)).collect())
    })
}

fn two_places(rng: &mut Rng, count: usize) -> (usize, usize) {
    let a = rng.below(count - 1);
    (a, rng.within(a + 1, count - 1))
}

/// Roads for refusal 10, 11, 12 or 13. Often a later condition holds too.
pub fn refused_roads(rng: &mut Rng, refusal: u8) -> Roads {
    let mut lists = roads(rng);
    let count = lists.lengths.len();
    let (first, last) = (0, count - 1);
    let any = rng.below(count);
    let at = rng.pick(&[first, any, last]);
    match refusal {
        10 => {
            let road = road(rng);
            match rng.below(6) {
                0 => lists = Roads::default(),
                1 => {
                    for _ in count..rng.within(17, 20) {
                        lists.lengths.push(road.0);
                        lists.metres.push(road.1);
                        lists.seconds.push(road.2);
                    }
                }
                2 => lists.lengths.push(0),
                3 => lists.metres.push(0),
                4 => lists.seconds.push(rng.pick(&[0, 3_601])),
                _ => {
                    let list = rng.pick(&[0, 1, 2]);
                    [&mut lists.lengths, &mut lists.metres, &mut lists.seconds][list].pop();
                }
            }
        }
        11 => {
            if rng.chance(100) {
                lists.metres[at] = 0;
            }
            if rng.chance(100) {
                lists.lengths[at] = 0;
            }
            if rng.chance(100) {
                lists.metres[first] = 5;
                lists.seconds[first] = 0;
            }
            lists.seconds[at] = rng.pick(&[3_601, 3_602, 65_535]);
        }
        12 => {
            for metres in &mut lists.metres {
                if rng.chance(64) {
                    *metres = 0;
                }
            }
            if rng.chance(100) {
                lists.lengths[at] = 0;
            }
            lists.metres[at] = rng.pick(&[1, 65_535, 300]);
            lists.seconds[at] = 0;
        }
        _ => {
            for (length, metres) in lists.lengths.iter_mut().zip(&mut lists.metres) {
                *length = (*length).max(1);
                *metres = 0;
            }
            lists.seconds[at] = rng.pick(&[0, 40, 3_600]);
        }
    }
    lists
}
