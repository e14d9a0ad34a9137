//! The timeline of the six-round cycle, on recordings whose text follows by hand from request F-4 of document 02.

use desk::story::tell_in;
use desk::timeline::timeline;
use desk::verdict::sentences;
use oracle::gen::{self, Rng, SMALL, TINY_SIX};
use oracle::marks::{radios, zero_complete};
use oracle::steps::follow;
use oracle::Cycle::SixRound;
use rajvokshul::Cycle;

fn recorded(openings: &[u8], rounds: &[&[u32]]) -> Vec<u8> {
    let (n, r) = (openings.len() as u32, rounds.len() as u32);
    rajvokshul::write(n, r, openings, &rounds.concat()).unwrap()
}

fn text(openings: &[u8], rounds: &[&[u32]]) -> String {
    timeline(&tell_in(Cycle::SixRound, &recorded(openings, rounds)).unwrap())
}

/// The text from the line on that begins with this.
fn text_from(start: &str, openings: &[u8], rounds: &[&[u32]]) -> String {
    let said = text(openings, rounds);
    let at = said.find(&format!("\n{start}")).expect("such a line");
    said[at + 1..].to_string()
}

fn verdict(openings: &[u8], rounds: &[&[u32]]) -> Vec<String> {
    sentences(&tell_in(Cycle::SixRound, &recorded(openings, rounds)).unwrap())
}

const SILENT: &[u32] = &[0; 5];
const BOTH: &[u32] = &[0, 0b11, 0, 0, 0];

/// Silent rounds of two trucks, but for one of them.
fn silent_but(number: usize, words: &[u32], count: usize) -> Vec<&[u32]> {
    (1..=count).map(|round| if round == number { words } else { SILENT }).collect()
}

#[test]
fn one_value_is_decided_after_six_rounds() {
    // Both hear 3 and 5 in prepare and take 3, which is 0011: both send in the rounds for the bits worth 2 and 1.
    let expected = "\
2 trucks, 11 rounds in the six-round cycle

truck 0 opens with crusher 3
truck 1 opens with crusher 5

round 1 (prepare): 2 of 2 running, 2 estimates sent (trucks 0, 1)
  truck 0  sent 3   estimate 3         heard 2 of 2
  truck 1  sent 5   estimate 5 -> 3    heard 2 of 2
round 2 (bit 8): 2 of 2 running, 0 messages sent
  truck 0  silent   estimate 3         nothing to hear
  truck 1  silent   estimate 3         nothing to hear
round 3 (bit 4): 2 of 2 running, 0 messages sent
  truck 0  silent   estimate 3         nothing to hear
  truck 1  silent   estimate 3         nothing to hear
round 4 (bit 2): 2 of 2 running, 2 messages sent (trucks 0, 1)
  truck 0  sent     estimate 3         heard 2 of 2
  truck 1  sent     estimate 3         heard 2 of 2
round 5 (bit 1): 2 of 2 running, 2 messages sent (trucks 0, 1)
  truck 0  sent     estimate 3         heard 2 of 2
  truck 1  sent     estimate 3         heard 2 of 2
round 6 (accept): 2 of 2 running, 0 vetoes sent
  truck 0  silent   estimate 3         nothing to hear; decided 3
  truck 1  silent   estimate 3         nothing to hear; decided 3
rounds 7 to 11: no truck runs

verdict
  Agreement was guaranteed: marks were zero complete in every round.
  Every truck decided crusher 3, the last in round 6.
  Rounds 1 to 11 are calm, with at most 2 senders in a prepare round: every truck has decided or stopped by round 11.
";
    assert_eq!(text(&[3, 5], &silent_but(1, BOTH, 11)), expected);
}

#[test]
fn a_silent_prepare_lets_a_truck_decide() {
    // 6 is 0110. A truck hears itself.
    let expected = "\
1 truck, 6 rounds in the six-round cycle

truck 0 opens with crusher 6

round 1 (prepare): 1 of 1 running, 0 estimates sent
  truck 0  silent   estimate 6         nothing to hear
round 2 (bit 8): 1 of 1 running, 0 messages sent
  truck 0  silent   estimate 6         nothing to hear
round 3 (bit 4): 1 of 1 running, 1 message sent (truck 0)
  truck 0  sent     estimate 6         heard 1 of 1
round 4 (bit 2): 1 of 1 running, 1 message sent (truck 0)
  truck 0  sent     estimate 6         heard 1 of 1
round 5 (bit 1): 1 of 1 running, 0 messages sent
  truck 0  silent   estimate 6         nothing to hear
round 6 (accept): 1 of 1 running, 0 vetoes sent
  truck 0  silent   estimate 6         nothing to hear; decided 6

verdict
  Agreement was guaranteed: marks were zero complete in every round.
  Every truck decided crusher 6, the last in round 6.
  No eleven rounds in a row were calm.
";
    assert_eq!(text(&[6], &[&[0; 4][..]; 6]), expected);
}

#[test]
fn unwilling_on_a_message_on_a_mark_and_on_both() {
    // Truck 0 holds 4, which is 0100, the others 0. In round 3 truck 0 sends: truck 1 hears it, truck 2 misses it and has a
    // mark, truck 3 hears it and has a mark. Truck 0 has a mark too, which is nothing to a truck whose bit is 1. In round 4
    // truck 1, which is unwilling already, has a mark; in round 5 truck 0, whose bit is 0.
    let silent: &[u32] = &[0; 7];
    let third: &[u32] = &[0, 0, 0b1101, 0, 0, 0b0001, 0];
    let fourth: &[u32] = &[0, 0, 0b0010, 0, 0, 0, 0];
    let fifth: &[u32] = &[0, 0, 0b0001, 0, 0, 0, 0];
    let rounds = [silent, silent, third, fourth, fifth, silent];
    let expected = "\
round 3 (bit 4): 4 of 4 running, 1 message sent (truck 0)
  truck 0  sent     estimate 4         heard 1 of 1; false mark; breaks accurate
  truck 1  silent   estimate 0         heard 1 of 1; became unwilling on a message
  truck 2  silent   estimate 0         heard 0 of 1, missed truck 0; mark; became unwilling on a mark
  truck 3  silent   estimate 0         heard 1 of 1; false mark; breaks accurate; became unwilling on a message and a mark
round 4 (bit 2): 4 of 4 running, 0 messages sent
  truck 0  silent   estimate 4         nothing to hear
  truck 1  silent   estimate 0         nothing to hear; false mark; breaks accurate
  truck 2  silent   estimate 0         nothing to hear
  truck 3  silent   estimate 0         nothing to hear
round 5 (bit 1): 4 of 4 running, 0 messages sent
  truck 0  silent   estimate 4         nothing to hear; false mark; breaks accurate; became unwilling on a mark
  truck 1  silent   estimate 0         nothing to hear
  truck 2  silent   estimate 0         nothing to hear
  truck 3  silent   estimate 0         nothing to hear
round 6 (accept): 4 of 4 running, 4 vetoes sent (trucks 0-3)
  truck 0  vetoed   estimate 4         heard 4 of 4
  truck 1  vetoed   estimate 0         heard 4 of 4
  truck 2  vetoed   estimate 0         heard 4 of 4
  truck 3  vetoed   estimate 0         heard 4 of 4

verdict
  Agreement was guaranteed: marks were zero complete in every round.
  No truck decided. Still running: trucks 0-3.
  No eleven rounds in a row were calm.
";
    assert_eq!(text_from("round 3 ", &[4, 0, 0, 0], &rounds), expected);
}

#[test]
fn an_unwilling_truck_sends_its_bits_all_the_same() {
    // 3 is 0011 and 5 is 0101: truck 0 hears truck 1 in round 3 and sends in rounds 4 and 5; truck 1 hears it in round 4.
    let expected = "\
round 3 (bit 4): 2 of 2 running, 1 message sent (truck 1)
  truck 0  silent   estimate 3         heard 1 of 1; became unwilling on a message
  truck 1  sent     estimate 5         heard 1 of 1
round 4 (bit 2): 2 of 2 running, 1 message sent (truck 0)
  truck 0  sent     estimate 3         heard 1 of 1
  truck 1  silent   estimate 5         heard 1 of 1; became unwilling on a message
round 5 (bit 1): 2 of 2 running, 2 messages sent (trucks 0, 1)
  truck 0  sent     estimate 3         heard 2 of 2
  truck 1  sent     estimate 5         heard 2 of 2

verdict
  Agreement was guaranteed: marks were zero complete in every round.
  No truck decided. Still running: trucks 0, 1.
  No eleven rounds in a row were calm.
";
    assert_eq!(text_from("round 3 ", &[3, 5], &[SILENT; 5]), expected);
}

#[test]
fn a_veto_in_accept() {
    // Truck 0 holds 4 and truck 1 holds 0, so that truck 1 becomes unwilling in round 3. After round 6 it is willing again:
    // it decides in round 12, since truck 0 stops in round 8 and so does not send in round 9.
    let mut rounds = vec![SILENT; 12];
    rounds[7] = &[0b01, 0, 0, 0, 0];
    let said = text_from("round 6 ", &[4, 0], &rounds);
    assert!(
        said.starts_with(
            "\
round 6 (accept): 2 of 2 running, 1 veto sent (truck 1)
  truck 0  silent   estimate 4         heard 1 of 1
  truck 1  vetoed   estimate 0         heard 1 of 1
round 7 (prepare): 2 of 2 running, 0 estimates sent
"
        ),
        "{said}"
    );
    assert!(
        said.contains(
            "
round 12 (accept): 1 of 2 running, 0 vetoes sent
  truck 1  silent   estimate 0         nothing to hear; decided 0
"
        ),
        "{said}"
    );
    // Truck 0 misses the veto with a mark; or without one, and decides.
    let marked = text_from("round 6 ", &[4, 0], &silent_but(6, &[0, 0, 0b01, 0b10, 0], 6));
    assert!(
        marked.starts_with(
            "\
round 6 (accept): 2 of 2 running, 1 veto sent (truck 1)
  truck 0  silent   estimate 4         heard 0 of 1, missed truck 1; mark
  truck 1  vetoed   estimate 0         heard 1 of 1
"
        ),
        "{marked}"
    );
    let expected = "\
round 6 (accept): 2 of 2 running, 1 veto sent (truck 1)
  truck 0  silent   estimate 4         heard 0 of 1, missed truck 1; breaks complete, majority complete, zero complete; decided 4
  truck 1  vetoed   estimate 0         heard 1 of 1

verdict
  Agreement was not guaranteed: marks were not zero complete in round 6 (accept), where without a mark truck 0 heard 0 of 1 message.
  1 of 2 trucks decided crusher 4, the last in round 6. Still running: truck 1.
  No eleven rounds in a row were calm.
";
    let missed = silent_but(6, &[0, 0, 0, 0b10, 0], 6);
    assert_eq!(text_from("round 6 ", &[4, 0], &missed), expected);
}

#[test]
fn a_stop_in_a_bit_round() {
    // 15 is 1111: truck 0 would send in round 2. Truck 1 hears nothing, stays willing and decides.
    let expected = "\
round 2 (bit 8): 1 of 2 running, 0 messages sent
  truck 0  stopped  estimate 15
  truck 1  silent   estimate 0         nothing to hear
round 3 (bit 4): 1 of 2 running, 0 messages sent
  truck 1  silent   estimate 0         nothing to hear
round 4 (bit 2): 1 of 2 running, 0 messages sent
  truck 1  silent   estimate 0         nothing to hear
round 5 (bit 1): 1 of 2 running, 0 messages sent
  truck 1  silent   estimate 0         nothing to hear
round 6 (accept): 1 of 2 running, 0 vetoes sent
  truck 1  silent   estimate 0         nothing to hear; decided 0

verdict
  Agreement was guaranteed: marks were zero complete in every round.
  1 of 2 trucks decided crusher 0, the last in round 6. Stopped: truck 0.
  No eleven rounds in a row were calm.
";
    let stop: &[u32] = &[0b01, 0b11, 0b01, 0, 0];
    assert_eq!(text_from("round 2 ", &[15, 0], &silent_but(2, stop, 6)), expected);
    // A truck that stops after it became unwilling sends no veto.
    let said = text_from("round 5 ", &[0, 8], &silent_but(5, &[0b01, 0, 0, 0, 0], 6));
    let expected = "\
round 5 (bit 1): 1 of 2 running, 0 messages sent
  truck 0  stopped  estimate 0
  truck 1  silent   estimate 8         nothing to hear
round 6 (accept): 1 of 2 running, 0 vetoes sent
  truck 1  silent   estimate 8         nothing to hear; decided 8
";
    assert!(said.starts_with(expected), "{said}");
}

#[test]
fn a_mark_in_prepare_keeps_the_estimate() {
    // Truck 1 hears 3 and has a mark; it starts the cycle willing all the same.
    let said = text(&[3, 5], &silent_but(1, &[0, 0b01, 0b10, 0, 0], 2));
    let expected = "
round 1 (prepare): 2 of 2 running, 1 estimate sent (truck 0)
  truck 0  sent 3   estimate 3         heard 1 of 1
  truck 1  silent   estimate 5         heard 1 of 1; false mark; breaks accurate
round 2 (bit 8): 2 of 2 running, 0 messages sent
";
    assert!(said.contains(expected), "{said}");
}

#[test]
fn agreement_goes_by_zero_complete_marks_in_every_round() {
    // Neither ever hears the other: in round 3 truck 1, of 5, sends alone, in round 4 truck 0, of 3.
    let apart: &[u32] = &[0, 0b11, 0, 0b10, 0b01];
    let said = verdict(&[3, 5], &[apart; 6]);
    assert_eq!(
        said,
        [
            "Agreement was not guaranteed: marks were not zero complete in round 3 (bit 4), where without a mark truck 0 heard 0 of 1 message.",
            "Every truck decided, but on different crushers: crusher 3 by truck 0, crusher 5 by truck 1.",
            "No eleven rounds in a row were calm.",
        ]
    );
    // Half of the messages missed without a mark is not asked for, in prepare neither.
    let half = verdict(&[3, 5], &silent_but(1, apart, 2));
    assert_eq!(half[0], "Agreement was guaranteed: marks were zero complete in every round.");
    assert_eq!(half.len(), 3);
    // Truck 1 misses the only estimate of prepare.
    let missed = verdict(&[3, 5], &[&[0, 0b01, 0, 0, 0b01]]);
    assert_eq!(
        missed[0],
        "Agreement was not guaranteed: marks were not zero complete in round 1 (prepare), where without a mark truck 1 heard 0 of 1 message."
    );
}

#[test]
fn calm_for_eleven_rounds() {
    let calm = |openings: &[u8], rounds: &[&[u32]]| verdict(openings, rounds).pop().unwrap();
    let none = "No eleven rounds in a row were calm.";
    // Ten rounds are none too many.
    assert_eq!(calm(&[3, 5], &silent_but(1, BOTH, 10)), none);
    // A false mark in round 1, and from round 2 on all is calm: prepare in round 7 has one sender.
    let alone: &[u32] = &[0, 0b10, 0, 0, 0];
    let mut rounds = vec![SILENT; 12];
    rounds[0] = &[0, 0, 0b01, 0, 0];
    rounds[6] = alone;
    assert_eq!(
        calm(&[3, 5], &rounds),
        "Rounds 2 to 12 are calm, with at most 1 sender in a prepare round: every truck has decided or stopped by round 12."
    );
    // A silent prepare with a truck running is not; a round of one sender that truck 0 misses is not.
    rounds[6] = SILENT;
    assert_eq!(calm(&[3, 5], &rounds), none);
    rounds[6] = alone;
    rounds[2] = &[0, 0, 0b01, 0b10, 0];
    assert_eq!(calm(&[3, 5], &rounds), none);
    // Nobody runs in the prepare rounds 1 and 7.
    assert_eq!(
        calm(&[3, 5], &silent_but(1, &[0b11, 0, 0, 0, 0], 11)),
        "Rounds 1 to 11 are calm, as no truck runs in a prepare round of these: every truck has decided or stopped by round 11."
    );
}

#[test]
fn no_rounds_of_six() {
    let expected = "\
1 truck, 0 rounds in the six-round cycle

truck 0 opens with crusher 15

verdict
  Agreement was guaranteed: marks were zero complete in every round.
  No truck decided. Still running: truck 0.
  No eleven rounds in a row were calm.
";
    assert_eq!(text(&[15], &[]), expected);
}

/// For each thing that is noticed the trucks that become unwilling on it, by the independent reading: a message, a mark, both.
fn noticed(plain: &oracle::Plain) -> [usize; 3] {
    let (_, mut before) = oracle::start(plain.n as u64, &plain.openings);
    let mut found = [0; 3];
    for radio in radios(SixRound, plain) {
        let after = follow(SixRound, &before, plain.round(radio.round.into()));
        for i in 0..plain.n {
            if !before.trucks[i].unwilling && after.trucks[i].unwilling {
                found[match (radio.heard(i) > 0, radio.mark_bit[i]) {
                    (true, false) => 0,
                    (false, _) => 1,
                    (true, true) => 2,
                }] += 1;
            }
        }
        before = after;
    }
    found
}

#[test]
fn lines_of_six_rounds_as_the_independent_reading_counts_them() {
    let mut rng = Rng::new(0x6E51);
    let mut all = [0; 3];
    for k in 0..600 {
        let plain = gen::plain(SixRound, &mut rng, if k % 10 == 0 { SMALL } else { TINY_SIX });
        let said = timeline(&tell_in(Cycle::SixRound, &gen::bytes_of(&plain)).unwrap());
        assert_eq!(said.contains("  Agreement was guaranteed: "), zero_complete(SixRound, &plain));
        assert!(!said.contains("\nsent\n") && !said.contains("fine detector"), "{said}");
        let radios = radios(SixRound, &plain);
        let lines = |of: &dyn Fn(&str) -> bool| said.lines().filter(|line| of(line)).count();
        let turns = |part: &str| lines(&|line| line.starts_with("  truck ") && line.contains(part));
        let sent: usize = radios.iter().map(|radio| radio.messages()).sum();
        assert_eq!(turns("  sent ") + turns("  vetoed "), sent);
        let expected = noticed(&plain);
        let on = |what: &str| lines(&|line| line.ends_with(&format!("became unwilling on {what}")));
        assert_eq!([on("a message"), on("a mark"), on("a message and a mark")], expected);
        all = [0, 1, 2].map(|kind| all[kind] + expected[kind]);
        // Rounds in which no truck runs or stops are told together, without their names.
        for (number, name) in (1..=plain.rounds)
            .zip(["prepare", "bit 8", "bit 4", "bit 2", "bit 1", "accept"].into_iter().cycle())
        {
            let named = lines(&|line| line.starts_with(&format!("round {number} (")));
            assert_eq!(
                lines(&|line| line.starts_with(&format!("round {number} ({name}): "))),
                named
            );
            let runs = radios[number - 1].running.iter().any(|runs| *runs);
            assert!(named == 1 || !runs, "round {number}");
        }
        let (_, end) = oracle::run(SixRound, &gen::bytes_of(&plain));
        let ended = |is: fn(oracle::State) -> bool| {
            end.trucks_below_n().iter().filter(|truck| is(truck.state)).count()
        };
        let decided = ended(|state| matches!(state, oracle::State::Decided(_)));
        assert_eq!(turns("; decided "), decided);
        assert_eq!(turns("  stopped "), ended(|state| matches!(state, oracle::State::Stopped(_))));
    }
    assert!(all[0] > 100 && all[1] > 50 && all[2] > 5, "{all:?}");
}
