//! A dispatcher's morning: three trucks settle on a crusher while their rounds are recorded, and the recording is read back.

use rajvokshul::{grade, list, opening, read, Class, Fleet, Recorder, Refusal, Round, State};

fn main() -> Result<(), Refusal> {
    // Each truck opens with the crusher that it would reach first, by its own last runs: length, metres, seconds.
    let openings = [
        opening(&[1200, 900], &[600, 300], &[90, 60])?,
        opening(&[500, 900], &[0, 300], &[40, 60])?,
        opening(&[800, 700], &[400, 700], &[60, 50])?,
    ];
    println!("openings {openings:?}");
    let mut recorder = Recorder::start(&openings)?;

    // Trucks 0 and 1 send, and truck 2 does not hear truck 0. Its radio reports that, so that it vetoes.
    recorder.step(Round::new(3)?.active(0)?.active(1)?.lost(2, 0)?.marked(2)?)?;
    recorder.step(Round::new(3)?)?;
    // A round with a truck that is not there is refused and not taken.
    println!("{}", Round::new(3)?.active(3).unwrap_err());
    // Now truck 0 sends alone and is heard by all.
    recorder.step(Round::new(3)?.active(0)?)?;
    let fleet = recorder.step(Round::new(3)?)?;
    for (i, truck) in fleet.iter().enumerate() {
        match truck.state {
            State::Decided(round) => {
                println!("truck {i} goes to crusher {} since round {round}", truck.estimate)
            }
            state => println!("truck {i} is {state:?}"),
        }
    }

    // The recording of these rounds leaves the same fleet, and every mark that was due was there.
    let recording = recorder.recording();
    assert_eq!(&Fleet::run(&recording)?, recorder.fleet());
    print!("{}", list(&recording)?);
    println!("majority complete: {}", grade(&recording)?.first_break(Class::Majority).is_none());
    let first = Round::try_from(read(&recording)?.round(1).unwrap())?;
    println!("{first:?}");
    Ok(())
}
