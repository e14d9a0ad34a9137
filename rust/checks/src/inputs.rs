//! The recordings and rounds that are measured, made from fixed seeds. The independent reading holds each to its name as it is made.

use oracle::gen::{self, Habits, Rng};
use oracle::steps::{follow, radio};
use oracle::{Cycle, Fleet, Header, Plain, State};
use Cycle::{SixRound, TwoRound};

/// A recording and its name.
pub struct Input {
    pub what: String,
    pub bytes: Vec<u8>,
}

/// A record, the round that it is stepped by, the cycle of that round, and their name.
pub struct Step {
    pub what: String,
    pub cycle: Cycle,
    pub fleet: Fleet,
    pub words: Vec<u32>,
}

fn trucks(n: usize) -> String {
    format!("{n} truck{}", if n == 1 { "" } else { "s" })
}

fn size(plain: &Plain) -> String {
    format!(
        "{}, {} round{}",
        trucks(plain.n),
        plain.rounds,
        if plain.rounds == 1 { "" } else { "s" }
    )
}

fn named(plain: &Plain, what: &str) -> Input {
    Input { what: format!("{}, {what}", size(plain)), bytes: gen::bytes_of(plain) }
}

// What the independent reading says of a recording

/// What a round came to: its messages, and the trucks that run after it.
struct Came {
    sent: usize,
    running: usize,
}

fn running(fleet: &Fleet) -> usize {
    fleet.trucks_below_n().iter().filter(|truck| truck.is_running()).count()
}

/// What each round came to, the first round first.
fn course(cycle: Cycle, plain: &Plain) -> Vec<Came> {
    let (_, mut fleet) = oracle::start(plain.n as u64, &plain.openings);
    let mut came = Vec::new();
    for number in 1..=plain.rounds {
        let sent = radio(cycle, &fleet, plain.round(number)).messages();
        fleet = follow(cycle, &fleet, plain.round(number));
        came.push(Came { sent, running: running(&fleet) });
    }
    came
}

/// Nobody stops or decides.
fn all_run(cycle: Cycle, plain: &Plain) -> bool {
    course(cycle, plain).iter().all(|came| came.running == plain.n)
}

/// So many messages in every veto round.
fn vetoes(plain: &Plain, sent: usize) -> bool {
    course(TwoRound, plain).iter().skip(1).step_by(2).all(|came| came.sent == sent)
}

/// In how many rounds all settle that are let: two cycles of two, one of six.
fn settling(cycle: Cycle) -> usize {
    match cycle {
        TwoRound => 4,
        SixRound => 6,
    }
}

/// So many trucks run from the end of the settling rounds to the end of the last.
fn run_on(cycle: Cycle, plain: &Plain, running: usize) -> bool {
    course(cycle, plain).iter().skip(settling(cycle) - 1).all(|came| came.running == running)
}

// Making them

/// Half of the trucks active, a quarter of the messages lost or more, few marks in proposal rounds and many in veto rounds.
fn lossy(rng: &mut Rng) -> Habits {
    Habits { stop: 0, active: 128, mark: 40, veto_mark: 250, loss: 60, ..gen::habits(rng) }
}

fn any_openings(rng: &mut Rng, n: usize) -> Vec<u8> {
    (0..n).map(|_| rng.below(16) as u8).collect()
}

/// The trucks that the next round lets decide.
fn deciding(cycle: Cycle, fleet: &Fleet, words: &[u32]) -> u32 {
    let next = follow(cycle, fleet, words);
    let decides = |i: &usize| next.trucks[*i].state == State::Decided(next.done);
    (0..next.n as usize).filter(decides).fold(0, |set, i| set | 1 << i)
}

/// Lossy rounds in which a mark keeps each truck that would decide.
fn busy(cycle: Cycle, seed: u64, n: usize, rounds: usize) -> Plain {
    let mut rng = Rng::new(seed);
    let habits = lossy(&mut rng);
    let openings = any_openings(&mut rng, n);
    let plain = gen::build(cycle, &mut rng, Header { n, rounds }, openings, |rng, fleet| {
        let mut words = gen::round(cycle, rng, n, fleet.done as usize + 1, &habits);
        words[2] |= deciding(cycle, fleet, &words);
        words
    });
    assert!(all_run(cycle, &plain));
    plain
}

/// A largest recording: those of `stop` stop in round 1, those of `stay` run on to the end through lossy rounds, and all others decide in round 4, of six rounds in round 6.
fn few(cycle: Cycle, seed: u64, stop: u32, stay: u32) -> Plain {
    let mut rng = Rng::new(seed);
    let habits = lossy(&mut rng);
    let openings = any_openings(&mut rng, 32);
    // all active, all heard, no marks: round 1 leaves one value, which all hear in round 3 or tell by its bits
    let calm = [vec![stop, u32::MAX, 0], vec![0; 32]].concat();
    let size = Header { n: 32, rounds: 400 };
    let plain = gen::build(cycle, &mut rng, size, openings, |rng, fleet| {
        let number = fleet.done as usize + 1;
        let mut words = if number <= settling(cycle) {
            calm.clone()
        } else {
            gen::round(cycle, rng, 32, number, &habits)
        };
        words[2] |= deciding(cycle, fleet, &words) & stay;
        words
    });
    assert!(run_on(cycle, &plain, stay.count_ones() as usize));
    plain
}

/// All trucks propose, and a quarter of the messages are lost, but none of truck 0. It alone has a mark, in proposal rounds only: its veto, which all hear, keeps all trucks running.
fn vetoed(rng: &mut Rng, openings: Vec<u8>, rounds: usize) -> Plain {
    let n = openings.len();
    let plain = gen::build(TwoRound, rng, Header { n, rounds }, openings, |rng, fleet| {
        let proposals = fleet.done % 2 == 0;
        let mut words =
            vec![0, if proposals { u32::MAX >> (32 - n) } else { 0 }, u32::from(proposals)];
        for i in 0..n {
            words.push(
                (1..n).filter(|j| *j != i && rng.below(256) < 60).fold(0, |row, j| row | 1 << j),
            );
        }
        words
    });
    assert!(all_run(TwoRound, &plain));
    plain
}

/// All trucks open alike, so that nobody but truck 0 ever vetoes.
fn one_vetoes() -> Plain {
    let plain = vetoed(&mut Rng::new(5), vec![7; 32], 400);
    assert!(vetoes(&plain, 1));
    plain
}

/// Truck 0 keeps an opening that is not the least, so that all hear two values or more, and veto.
fn all_veto() -> Plain {
    let mut rng = Rng::new(5);
    let openings = any_openings(&mut rng, 32);
    let plain = vetoed(&mut rng, openings, 400);
    assert!(vetoes(&plain, 32));
    plain
}

/// Every truck has a mark in every round.
fn marked() -> Plain {
    let mut rng = Rng::new(9);
    let habits = Habits { mark: 256, veto_mark: 256, ..lossy(&mut rng) };
    let openings = any_openings(&mut rng, 32);
    let plain =
        gen::build(TwoRound, &mut rng, Header { n: 32, rounds: 400 }, openings, |rng, fleet| {
            gen::round(TwoRound, rng, 32, fleet.done as usize + 1, &habits)
        });
    assert!((1..=400).all(|number| plain.round(number)[2] == u32::MAX));
    assert!(all_run(TwoRound, &plain) && vetoes(&plain, 32));
    assert!(all_run(SixRound, &plain));
    plain
}

/// Nobody sends, and nobody has a mark.
fn silent() -> Plain {
    let plain = Plain { n: 32, rounds: 400, openings: vec![7; 32], words: vec![0; 400 * 35] };
    assert!(all_run(TwoRound, &plain));
    assert!(course(TwoRound, &plain).iter().all(|came| came.sent == 0));
    plain
}

// The lists of them

/// Recordings of 32 trucks and 400 rounds.
pub fn largest() -> Vec<Input> {
    let half = few(TwoRound, 7, 0x1111_1111, 0xAAAA_AAAA);
    let random = gen::plain_of_size(TwoRound, &mut Rng::new(2), Header { n: 32, rounds: 400 });
    vec![
        named(&busy(TwoRound, 1, 32, 400), "all running"),
        named(&one_vetoes(), "one truck vetoes"),
        named(&all_veto(), "all trucks veto"),
        named(&half, "half running on"),
        named(&few(TwoRound, 8, 0, 1 << 13), "one running on"),
        named(&marked(), "marked"),
        named(&silent(), "silent"),
        named(&random, "random"),
    ]
}

/// Recordings of each size, in which nobody stops or decides.
pub fn sizes() -> Vec<Input> {
    let fleets = [1, 2, 4, 8, 16, 24, 32];
    let long = fleets.map(|n| busy(TwoRound, 3, n, 200));
    let short = fleets.map(|n| busy(TwoRound, 3, n, 20));
    let growing = [1, 10, 50, 100, 400].map(|rounds| busy(TwoRound, 4, 16, rounds));
    let all = long.iter().chain(&short).chain(&growing);
    all.map(|plain| Input { what: size(plain), bytes: gen::bytes_of(plain) }).collect()
}

/// Recordings for the six-round cycle: of 32 trucks and 400 rounds, and smaller ones in which nobody stops or decides.
pub fn six() -> Vec<Input> {
    let half = few(SixRound, 7, 0x1111_1111, 0xAAAA_AAAA);
    let mut all = vec![
        named(&busy(SixRound, 1, 32, 400), "all running"),
        named(&half, "half running on"),
        named(&few(SixRound, 8, 0, 1 << 13), "one running on"),
        named(&marked(), "marked"),
    ];
    let sizes = [(1, 200), (8, 200), (32, 200), (1, 20), (8, 20), (32, 20), (16, 1)];
    all.extend(sizes.map(|(n, rounds)| {
        let plain = busy(SixRound, 3, n, rounds);
        Input { what: size(&plain), bytes: gen::bytes_of(&plain) }
    }));
    all
}

/// The first two rounds of a fleet in which all trucks send in both.
fn two_steps(n: usize) -> [Step; 2] {
    let mut rng = Rng::new(6);
    let openings = any_openings(&mut rng, n);
    let plain = vetoed(&mut rng, openings, 2);
    assert!(course(TwoRound, &plain).iter().all(|came| came.sent == n));
    let (_, begun) = oracle::start(n as u64, &plain.openings);
    let (_, proposed) = oracle::step(TwoRound, &begun, plain.round(1));
    let step = |fleet: Fleet, number, what: &str| {
        assert_eq!(
            (fleet.done + 1, oracle::step(TwoRound, &fleet, plain.round(number)).0),
            (number as u16, 0)
        );
        Step {
            what: format!("{}, {what} round", trucks(n)),
            cycle: TwoRound,
            fleet,
            words: plain.round(number).to_vec(),
        }
    };
    [step(begun, 1, "proposal"), step(proposed, 2, "veto")]
}

/// Steps of fleets of 32, 8 and 1.
pub fn steps() -> Vec<Step> {
    [32, 8, 1].into_iter().flat_map(two_steps).collect()
}

/// Prepare, the round for the bit worth 4, and accept of a fleet in the six-round cycle.
fn six_steps(n: usize) -> [Step; 3] {
    let plain = busy(SixRound, 6, n, 6);
    [(1, "prepare"), (3, "a bit round"), (6, "accept")].map(|(number, what)| {
        let (_, mut fleet) = oracle::start(n as u64, &plain.openings);
        for before in 1..number {
            fleet = follow(SixRound, &fleet, plain.round(before));
        }
        let words = plain.round(number).to_vec();
        let radio = radio(SixRound, &fleet, &words);
        assert!(n == 1 || radio.messages() > 0);
        Step { what: format!("{}, {what}", trucks(n)), cycle: SixRound, fleet, words }
    })
}

/// Steps of such fleets of 32, 8 and 1.
pub fn steps_of_six() -> Vec<Step> {
    [32, 8, 1].into_iter().flat_map(six_steps).collect()
}

/// The largest recording that is refused 6 as late as can be: for the last truck of its last round.
pub fn own_bit_at_the_end() -> Input {
    let mut input = largest().swap_remove(0);
    let header = Header { n: 32, rounds: 400 };
    oracle::recording::set_bit(&mut input.bytes, header.loss_place(399, 31, 31));
    let named = oracle::OwnBit { round: 400, truck: 31 };
    assert_eq!(oracle::own_bit(&input.bytes), Some(named));
    Input { what: "32 trucks, 400 rounds, in the last round".to_string(), bytes: input.bytes }
}
