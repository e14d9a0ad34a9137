//! Two trucks pick their openings, follow a recorded morning as a live fleet, and agree, in two rounds and in six.

use rajvokshul::{
    grade, grade_in, list, opening, read, Class, Cycle, Fleet, Recorder, Refusal, Round, State,
};

fn main() -> Result<(), Refusal> {
    // Roads to crushers 0 and 1: length, metres and seconds of the last run. The first road is idle.
    println!("opening {}", opening(&[500, 900], &[0, 300], &[40, 60])?);
    // The same roads for a truck that stands at crusher 0.
    println!("standing at 0: opening {}", opening(&[0, 900], &[0, 300], &[40, 60])?);

    // Two trucks that open with crushers 3 and 5, four rounds, both active in rounds 1 and 3.
    let recording = [0x08, 0x04, 0x35, 0x30, 0x00, 0x03, 0x00, 0x00];
    print!("{}", list(&recording)?);
    println!("{:?}", grade(&recording)?);

    let plain = read(&recording)?;
    let mut fleet = Fleet::start(plain.openings.len() as u32, &plain.openings)?;
    for words in plain.rounds() {
        fleet.step(words)?;
        let decided = fleet.iter().filter(|truck| matches!(truck.state, State::Decided(_))).count();
        println!("round {}: {decided} decided", fleet.rounds_done());
    }
    assert_eq!(fleet, Fleet::run(&recording)?);

    // Radios that mark a round only where every message of it was missed take the cycle of six rounds. Both send in its
    // first. Truck 1 misses that and has no mark, since it hears itself; so the bits of 3 and 5 make both unwilling. In
    // prepare of the next cycle truck 0 sends alone.
    let both = Round::new(2)?.active(0)?.active(1)?;
    let mut recorder = Recorder::start_in(Cycle::SixRound, &plain.openings)?;
    for round in 1..=12 {
        let kind = recorder.cycle().round_kind(round);
        let fleet = recorder.step(match round {
            1 => both.clone().lost(1, 0)?,
            7 => Round::new(2)?.active(0)?,
            _ => Round::new(2)?,
        })?;
        let unwilling = fleet.iter().filter(|truck| truck.unwilling).count();
        println!("round {round}, {kind}: {unwilling} unwilling");
    }
    let graded = grade_in(recorder.cycle(), &recorder.recording())?;
    println!("zero complete: {}", graded.first_break(Class::Zero).is_none());
    let decided: Vec<String> = (recorder.fleet().iter().enumerate())
        .filter(|(_, truck)| truck.state == State::Decided(12))
        .map(|(i, truck)| format!("truck {i} decided at {}", truck.estimate))
        .collect();
    println!("six rounds, after round 12: {}", decided.join("; "));

    // A recording cut short is refused, and says why; one in which the radio of truck 0 claims to have missed itself says
    // where, too.
    println!("{}", list(&recording[..7]).unwrap_err());
    println!("{}", list(&[0x08, 0x02, 0x35, 0x33, 0x80, 0x00]).unwrap_err());
    Ok(())
}
