//! `desk`: shows what happened in a recording, and makes one from lines of text. The library part of this package has
//! everything but reading and printing.

#![forbid(unsafe_code)]

use std::ffi::{OsStr, OsString};
use std::fs::File;
use std::io::{self, ErrorKind, Read, Write};
use std::process::ExitCode;

use desk::command::{answer, parse, Request, DONE, FAILED, REFUSED, USAGE, USAGE_TEXT};
use desk::explain::MOST_READ;
use desk::record::{recorded_in, MOST_TEXT};

fn main() -> ExitCode {
    let arguments: Vec<OsString> = std::env::args_os().skip(1).collect();
    ExitCode::from(match parse(&arguments) {
        Err(complaint) => {
            complain(&format!("{complaint}\n{USAGE_TEXT}"));
            USAGE
        }
        Ok(Request::Say(text)) => print(text.as_bytes(), DONE),
        Ok(Request::Show(view, cycle, file)) => match input(file.as_deref(), MOST_READ) {
            None => FAILED,
            Some(bytes) => {
                let shown = answer(view, cycle, &bytes);
                if !shown.err.is_empty() {
                    complain(&shown.err);
                }
                print(shown.out.as_bytes(), shown.status)
            }
        },
        Ok(Request::Record(cycle, file)) => match input(file.as_deref(), MOST_TEXT + 1) {
            None => FAILED,
            Some(text) => match recorded_in(cycle, &text) {
                Ok(recording) => print(&recording, DONE),
                Err(wrong) => {
                    complain(&format!("{wrong}\n"));
                    REFUSED
                }
            },
        },
    })
}

/// What is in a file or on standard input, and no more than `most` bytes of it; nothing, with a message, where it cannot
/// be read.
fn input(file: Option<&OsStr>, most: usize) -> Option<Vec<u8>> {
    let mut bytes = Vec::new();
    let read = match file {
        Some(name) => {
            File::open(name).and_then(|file| file.take(most as u64).read_to_end(&mut bytes))
        }
        None => io::stdin().lock().take(most as u64).read_to_end(&mut bytes),
    };
    if let Err(error) = read {
        let name = file.map_or("standard input".into(), OsStr::to_string_lossy);
        complain(&format!("{name}: {error}\n"));
        return None;
    }
    Some(bytes)
}

/// Prints bytes and answers the status to end with. A reader that has gone away needs no message.
fn print(bytes: &[u8], status: u8) -> u8 {
    let mut out = io::stdout().lock();
    match out.write_all(bytes).and_then(|()| out.flush()) {
        Ok(()) => status,
        Err(error) => {
            if error.kind() != ErrorKind::BrokenPipe {
                complain(&format!("standard output: {error}\n"));
            }
            FAILED
        }
    }
}

/// A message on standard error. If that fails too, the status alone has to tell.
fn complain(message: &str) {
    let _ = write!(io::stderr(), "desk: {message}");
}
