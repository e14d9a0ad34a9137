//! A project of its own in Rust: a recording from standard input is listed, and recorded again as a live fleet.

use std::error::Error;
use std::io::{self, Read};

use rajvokshul::{list, read, Fleet, Recorder};

fn main() -> Result<(), Box<dyn Error>> {
    let mut recording = Vec::new();
    io::stdin().read_to_end(&mut recording)?;
    print!("{}", list(&recording)?);
    let plain = read(&recording)?;
    let mut recorder = Recorder::start(&plain.openings)?;
    for words in plain.rounds() {
        recorder.step(words)?;
    }
    if recorder.recording() != recording || recorder.fleet() != &Fleet::run(&recording)? {
        return Err("the recording is not the same".into());
    }
    Ok(())
}
