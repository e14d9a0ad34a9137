//! `desk record`: lines of text to a recording.

use std::fmt;

use rajvokshul::{Cycle, Fleet, Recorder, Refusal, Round};

/// A longer text is refused. 400 rounds in which each of 32 trucks misses every other take less than a sixth of it.
pub const MOST_TEXT: usize = 1 << 24;

/// Why a text makes no recording.
#[derive(Clone, Debug, PartialEq, Eq)]
pub struct Wrong {
    /// The line, counted from 1; none where it is the text as a whole.
    pub line: Option<usize>,
    /// What is wrong with it.
    pub what: String,
}

impl fmt::Display for Wrong {
    fn fmt(&self, f: &mut fmt::Formatter<'_>) -> fmt::Result {
        match self.line {
            Some(line) => write!(f, "line {line}: {}", self.what),
            None => f.write_str(&self.what),
        }
    }
}

/// The recording of a text: a line `start` with an opening for each truck, then a line `round` for each round. The fleet is
/// stepped in the two-round cycle.
pub fn recorded(text: &[u8]) -> Result<Vec<u8>, Wrong> {
    recorded_in(Cycle::TwoRound, text)
}

/// [`recorded`] of a fleet that is stepped in a cycle.
pub fn recorded_in(cycle: Cycle, text: &[u8]) -> Result<Vec<u8>, Wrong> {
    let whole = |what: &str| Wrong { line: None, what: what.to_string() };
    if text.len() > MOST_TEXT {
        return Err(whole("the text is longer than 16 MiB"));
    }
    let mut recorder = None;
    for (index, line) in String::from_utf8_lossy(text).lines().enumerate() {
        let told = line.split('#').next().unwrap_or_default();
        let words: Vec<&str> = told.split_whitespace().collect();
        let wrong = |what| Wrong { line: Some(index + 1), what };
        recorder = taken(cycle, recorder, &words).map_err(wrong)?;
    }
    Ok(recorder.ok_or_else(|| whole("there is no line start"))?.recording())
}

/// The recorder after one line, or what is wrong with the line.
fn taken(
    cycle: Cycle,
    recorder: Option<Recorder>,
    words: &[&str],
) -> Result<Option<Recorder>, String> {
    match (words, recorder) {
        ([], recorder) => Ok(recorder),
        (["start", openings @ ..], None) => start(cycle, openings).map(Some),
        (["start", ..], Some(_)) => Err("the fleet is started already".to_string()),
        (["round", ..], None) => Err("a line start comes before the first round".to_string()),
        (["round", bits @ ..], Some(mut recorder)) => {
            let round = round(recorder.fleet(), bits)?;
            recorder.step(round).map_err(|refusal| refusal.to_string())?;
            Ok(Some(recorder))
        }
        ([other, ..], _) => Err(format!("a line begins with start or round, not {other:?}")),
    }
}

fn start(cycle: Cycle, openings: &[&str]) -> Result<Recorder, String> {
    let crusher = |word: &&str| Ok(u8::try_from(number(word)?).unwrap_or(u8::MAX));
    let openings = openings.iter().map(crusher).collect::<Result<Vec<u8>, String>>()?;
    Recorder::start_in(cycle, &openings).map_err(|refusal| refusal.to_string())
}

/// The next round of a fleet, which the words after `round` tell of.
fn round(fleet: &Fleet, words: &[&str]) -> Result<Round, String> {
    let trucks = usize::from(fleet.trucks());
    let mut round = Round::new(trucks).map_err(|refusal| refusal.to_string())?;
    let mut kind = "";
    for &word in words {
        if matches!(word, "stopped" | "active" | "marked" | "lost") {
            kind = word;
            continue;
        }
        let next = match kind {
            "stopped" => round.stopped(number(word)?),
            "active" => round.active(number(word)?),
            "marked" => round.marked(number(word)?),
            "lost" => {
                let (truck, sender) = word.split_once(':').ok_or_else(|| not_a_pair(word))?;
                round.lost(number(truck)?, number(sender)?)
            }
            _ => {
                return Err(format!(
                    "after round comes stopped, active, marked or lost, not {word:?}"
                ))
            }
        };
        round = next.map_err(|refusal| format!("{kind} {word}: {}", in_round(fleet, refusal)))?;
    }
    Ok(round)
}

/// What a round that stands alone is refused for, with the number that it would have in the fleet.
fn in_round(fleet: &Fleet, refusal: Refusal) -> Refusal {
    match refusal {
        Refusal::OwnLoss { truck, .. } => {
            Refusal::OwnLoss { round: fleet.rounds_done() + 1, truck }
        }
        other => other,
    }
}

fn not_a_pair(word: &str) -> String {
    format!(
        "after lost come two trucks with a colon, as 1:0 for truck 1 missing truck 0, not {word:?}"
    )
}

/// A number in decimal digits; one that is too large to hold is the largest, which is refused as it would be.
fn number(word: &str) -> Result<usize, String> {
    if word.is_empty() || !word.bytes().all(|byte| byte.is_ascii_digit()) {
        return Err(format!("{word:?} is no number"));
    }
    Ok(word.parse().unwrap_or(usize::MAX))
}
