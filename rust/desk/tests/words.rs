//! The timeline, on recordings whose text follows from the rules of the scope paper by hand.

use desk::story::tell;
use desk::timeline::timeline;
use desk::trucks::{counted, messages, TruckSet};
use desk::verdict::sentences;
use oracle::gen::{self, Rng, SMALL, TINY};
use oracle::lists::sent_by_the_rules;
use oracle::Cycle::TwoRound;

fn text(openings: &[u8], rounds: &[&[u32]]) -> String {
    let (n, r) = (openings.len() as u32, rounds.len() as u32);
    let recording = rajvokshul::write(n, r, openings, &rounds.concat()).unwrap();
    timeline(&tell(&recording).unwrap())
}

#[test]
fn c13_in_words() {
    let said = text(&[4, 6, 9], &[&[0, 0b111, 0, 0, 0, 0b001]]);
    let expected = "\
3 trucks, 1 round

truck 0 opens with crusher 4
truck 1 opens with crusher 6
truck 2 opens with crusher 9

round 1 (proposal): 3 of 3 running, 3 proposals sent (trucks 0-2)
  truck 0  sent 4   estimate 4         heard 3 of 3
  truck 1  sent 6   estimate 6 -> 4    heard 3 of 3
  truck 2  sent 9   estimate 9 -> 6    heard 2 of 3 (trucks 1, 2), missed truck 0; breaks complete

sent
  truck 0  1 proposal, 0 vetoes
  truck 1  1 proposal, 0 vetoes
  truck 2  1 proposal, 0 vetoes
  in all   3 proposals, 0 vetoes

verdict
  Agreement was guaranteed: marks were majority complete in every round.
  No truck decided. Still running: trucks 0-2.
  No five rounds in a row were calm.
";
    assert_eq!(said, expected);
}

#[test]
fn stops_marks_calm_and_rounds_in_which_nobody_runs() {
    // Truck 0 stops in round 2 after it sent; truck 1 has a false mark in round 2, sends alone in round 3 and decides in
    // round 4. From round 3 on everything is calm with one sender.
    let alone = [0, 0b10, 0, 0, 0];
    let rounds: [&[u32]; 8] = [
        &[0, 0b01, 0b10, 0, 0b01],
        &[0b01, 0b11, 0b11, 0, 0],
        &alone,
        &[0; 5],
        &[0b11, 0b11, 0b11, 0, 0],
        &[0; 5],
        &[0; 5],
        &[0; 5],
    ];
    let expected = "\
2 trucks, 8 rounds

truck 0 opens with crusher 12
truck 1 opens with crusher 5

round 1 (proposal): 2 of 2 running, 1 proposal sent (truck 0)
  truck 0  sent 12  estimate 12        heard 1 of 1
  truck 1  silent   estimate 5         heard 0 of 1, missed truck 0; mark
round 2 (veto): 1 of 2 running, 1 veto sent (truck 1)
  truck 0  stopped  estimate 12
  truck 1  vetoed   estimate 5         heard 1 of 1; false mark; breaks accurate
round 3 (proposal): 1 of 2 running, 1 proposal sent (truck 1)
  truck 1  sent 5   estimate 5         heard 1 of 1
round 4 (veto): 1 of 2 running, 0 vetoes sent
  truck 1  silent   estimate 5         nothing to hear; decided 5
rounds 5 to 8: no truck runs

sent
  truck 0  1 proposal, 0 vetoes
  truck 1  1 proposal, 1 veto
  in all   2 proposals, 1 veto

verdict
  Agreement was guaranteed: marks were majority complete in every round.
  The fine detector may rest in rounds 2 and 4.
  1 of 2 trucks decided crusher 5, the last in round 4. Stopped: truck 0.
  Rounds 3 to 7 are calm, with at most 1 sender in a proposal round: every truck has decided or stopped by round 7.
";
    assert_eq!(text(&[12, 5], &rounds), expected);
}

#[test]
fn a_breach_names_the_trucks_by_what_they_heard() {
    // Five send; truck 0 hears itself alone, trucks 1 and 2 hear two, truck 3 hears three, truck 4 all.
    let words = [0, 0b11111, 0, 0b11110, 0b11100, 0b11001, 0b00011, 0];
    let recording = rajvokshul::write(5, 1, &[6; 5], &words).unwrap();
    let said = sentences(&tell(&recording).unwrap());
    assert_eq!(
        said[0],
        "Agreement was not guaranteed: marks were not majority complete in round 1, where without a mark \
         truck 0 heard 1 of 5 messages, trucks 1, 2 heard 2 of 5 messages."
    );
}

/// The first two sentences of the verdict.
fn first_two(openings: &[u8], rounds: &[&[u32]]) -> [String; 2] {
    let (n, r) = (openings.len() as u32, rounds.len() as u32);
    let recording = rajvokshul::write(n, r, openings, &rounds.concat()).unwrap();
    let said = sentences(&tell(&recording).unwrap());
    [said[0].clone(), said[1].clone()]
}

#[test]
fn agreement_guaranteed_by_mixed_marks() {
    // Both hear both values in round 1, so both veto in round 2, where each hears its own veto alone.
    let both: &[u32] = &[0, 0b11, 0, 0, 0];
    let deaf: &[u32] = &[0, 0, 0, 0b10, 0b01];
    let mixed = "Agreement was guaranteed: marks were majority complete in odd rounds and zero complete in even ones.";
    let said = first_two(&[3, 5], &[both, deaf]);
    assert_eq!(said[0], mixed);
    assert_eq!(
        said[1],
        "The fine detector may rest in round 2; in round 2 marks were only zero complete."
    );
    // A mark for one of the two that hear half leaves the other without.
    let one_marked: &[u32] = &[0, 0, 0b01, 0b10, 0b01];
    assert_eq!(first_two(&[3, 5], &[both, one_marked])[0], mixed);
    // With marks for both, marks are majority complete.
    let both_marked: &[u32] = &[0, 0, 0b11, 0b10, 0b01];
    assert_eq!(
        first_two(&[3, 5], &[both, both_marked, both]),
        [
            "Agreement was guaranteed: marks were majority complete in every round.",
            "The fine detector may rest in round 2."
        ]
    );
    // Each keeps its estimate by a mark of its own, so that the two go on for ten rounds.
    let kept: &[u32] = &[0, 0b11, 0b11, 0b10, 0b01];
    let rounds = [kept, deaf].repeat(5);
    let said = first_two(&[3, 5], &rounds);
    assert_eq!(said[0], mixed);
    assert_eq!(
        said[1],
        "The fine detector may rest in even rounds, 2 to 10; in 5 of these, first in round 2, marks were only zero complete."
    );
    let said = first_two(&[3, 5], &[kept, deaf, kept, both_marked, kept, deaf]);
    assert_eq!(said[0], mixed);
    assert_eq!(
        said[1],
        "The fine detector may rest in rounds 2, 4 and 6; in rounds 2 and 6 marks were only zero complete."
    );
}

#[test]
fn agreement_not_guaranteed() {
    // Trucks 0 and 1 miss the 3 in round 1 and the veto of truck 2 in round 2.
    let first: &[u32] = &[0, 0b111, 0, 0b100, 0b100, 0];
    let second: &[u32] = &[0, 0, 0, 0b100, 0b100, 0];
    assert_eq!(
        first_two(&[5, 5, 3], &[first, second]),
        [
            "Agreement was not guaranteed: marks were not zero complete in round 2, where without a mark trucks 0, 1 heard 0 of 1 message.",
            "The fine detector may rest in round 2."
        ]
    );
    // An even round that is only zero complete takes nothing away; the odd round after it does.
    let both: &[u32] = &[0, 0b11, 0, 0, 0];
    let half: &[u32] = &[0, 0b11, 0, 0b10, 0b01];
    assert_eq!(
        first_two(&[3, 5], &[both, &[0, 0, 0, 0b10, 0b01], half, &[0; 5]]),
        [
            "Agreement was not guaranteed: marks were not majority complete in round 3, where without a mark trucks 0, 1 heard 1 of 2 messages.",
            "The fine detector may rest in rounds 2 and 4; in round 2 marks were only zero complete."
        ]
    );
}

#[test]
fn no_rounds() {
    let expected = "\
1 truck, 0 rounds

truck 0 opens with crusher 15

sent
  truck 0  0 proposals, 0 vetoes
  in all   0 proposals, 0 vetoes

verdict
  Agreement was guaranteed: marks were majority complete in every round.
  No truck decided. Still running: truck 0.
  No five rounds in a row were calm.
";
    assert_eq!(text(&[15], &[]), expected);
}

#[test]
fn sets_and_numbers_in_words() {
    assert_eq!(TruckSet(0b1).named(), "truck 0");
    assert_eq!(TruckSet(0b11).named(), "trucks 0, 1");
    assert_eq!(TruckSet(0b1110_1101).named(), "trucks 0, 2, 3, 5-7");
    assert_eq!(TruckSet(u32::MAX).named(), "trucks 0-31");
    assert_eq!(TruckSet(1 << 31).to_string(), "31");
    assert_eq!(TruckSet(0).to_string(), "");
    assert_eq!(counted(1, "veto"), "1 veto");
    assert_eq!(counted(0, "veto"), "0 vetoes");
    assert_eq!(counted(56_018, "byte"), "56,018 bytes");
    assert_eq!(counted(12_003, "mark"), "12,003 marks");
    assert_eq!(messages(6_400, 1), "6,400 proposals, 1 veto");
}

/// The lines of a timeline between `sent` and the verdict.
fn sent_lines(said: &str) -> Vec<&str> {
    said.lines()
        .skip_while(|line| *line != "sent")
        .skip(1)
        .take_while(|line| !line.is_empty())
        .collect()
}

/// What they should be by the independent reading, for at most ten trucks.
fn sent_lines_of(plain: &oracle::Plain) -> Vec<String> {
    let sent = sent_by_the_rules(plain);
    let each = sent.iter().enumerate().map(|(i, sent)| {
        format!("  truck {i}  {}", messages(sent.proposals.into(), sent.vetoes.into()))
    });
    let all = |of: fn(&oracle::Sent) -> u8| sent.iter().map(|sent| usize::from(of(sent))).sum();
    let in_all = format!("  in all   {}", messages(all(|s| s.proposals), all(|s| s.vetoes)));
    each.chain([in_all]).collect()
}

/// The verdict's first sentence follows the independent reading, and so do the lines of rounds.
#[test]
fn lines_as_the_independent_reading_counts_them() {
    let mut rng = Rng::new(0x71E5);
    for k in 0..600 {
        let plain = gen::plain(TwoRound, &mut rng, if k % 10 == 0 { SMALL } else { TINY });
        let said = timeline(&tell(&gen::bytes_of(&plain)).unwrap());
        let (complete, mixed) =
            (oracle::marks::majority_complete(TwoRound, &plain), oracle::marks::mixed(&plain));
        assert_eq!(said.contains("  Agreement was guaranteed: "), mixed);
        assert_eq!(said.contains("  Agreement was not guaranteed: "), !mixed);
        assert_eq!(said.contains("marks were majority complete in every round."), complete);
        let radios = oracle::marks::radios(TwoRound, &plain);
        let sent: usize = radios.iter().map(|radio| radio.messages()).sum();
        let turns = said.lines().filter(|line| line.starts_with("  truck ")).collect::<Vec<_>>();
        let senders =
            turns.iter().filter(|line| line.contains("  sent ") || line.contains("  vetoed "));
        assert_eq!(senders.count(), sent);
        let (_, end) = oracle::run(TwoRound, &gen::bytes_of(&plain));
        assert_eq!(sent_lines(&said), sent_lines_of(&plain));
        let ended = |is: fn(oracle::State) -> bool| {
            end.trucks_below_n().iter().filter(|truck| is(truck.state)).count()
        };
        let decided = turns.iter().filter(|line| line.contains("; decided ")).count();
        assert_eq!(decided, ended(|state| matches!(state, oracle::State::Decided(_))));
        let stopped = turns.iter().filter(|line| line.contains("  stopped ")).count();
        assert_eq!(stopped, ended(|state| matches!(state, oracle::State::Stopped(_))));
    }
}
