//! The printed text, which is that of a run in the two-round cycle.

use crate::cycle::Cycle;
use crate::fleet::State;
use crate::recording::{own_bit, OwnBit, LARGEST};
use crate::steps::run;

/// What is printed for a recording, a refused one included.
pub fn listing(bytes: &[u8]) -> String {
    match accepted_listing(bytes) {
        Ok(text) => text,
        Err(refusal) => match own_bit(bytes) {
            Some(OwnBit { round, truck }) => {
                format!("refused {refusal} round {round} truck {truck}\n")
            }
            None => format!("refused {refusal}\n"),
        },
    }
}

/// What the program prints for its input: it reads one byte more than the
/// largest recording has, and no further.
pub fn program(input: &[u8]) -> String {
    listing(&input[..input.len().min(LARGEST + 1)])
}

/// The text of an accepted recording in a lent buffer, and its length: 1 to 6,
/// then 9. On a refusal the buffer doesn't change.
pub fn listing_into(bytes: &[u8], buffer: &mut [u8]) -> Result<usize, u8> {
    let text = accepted_listing(bytes)?;
    if buffer.len() < text.len() {
        return Err(9);
    }
    buffer[..text.len()].copy_from_slice(text.as_bytes());
    Ok(text.len())
}

fn accepted_listing(bytes: &[u8]) -> Result<String, u8> {
    let (number, fleet) = run(Cycle::TwoRound, bytes);
    if number != 0 {
        return Err(number);
    }
    let mut text = format!("trucks {} rounds {}\n", fleet.n, fleet.done);
    for (i, truck) in fleet.trucks_below_n().iter().enumerate() {
        let crusher = truck.estimate;
        let standing = match truck.state {
            State::Running => format!("running {crusher}"),
            State::Stopped(round) => format!("stopped {crusher} round {round}"),
            State::Decided(round) => format!("decided {crusher} round {round}"),
        };
        let sent = sent_text(truck.sent.proposals.into(), truck.sent.vetoes.into());
        text.push_str(&format!("{i} opened {} {standing} {sent}\n", truck.opening));
    }
    let (proposals, vetoes) = fleet.totals();
    text.push_str(&format!("{}\n", sent_text(proposals, vetoes)));
    Ok(text)
}

/// The two counts, in the same words for one truck and for all.
fn sent_text(proposals: u32, vetoes: u32) -> String {
    format!("sent {proposals} vetoes {vetoes}")
}
