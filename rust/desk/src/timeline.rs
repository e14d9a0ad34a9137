//! The text of `desk timeline`.

use rajvokshul::{Cycle, RoundKind, Truck};

use crate::story::{Message, Round, Story, Turn};
use crate::trucks::{counted, messages, TruckSet};
use crate::verdict::{counts, sentences, Breaks, Counts};

/// The whole run in words: openings, each round truck by truck, in two rounds how much each sent, and the verdict.
pub fn timeline(story: &Story) -> String {
    let mut text = format!("{}\n\n", size_text(story));
    for (truck, opening) in story.openings.iter().enumerate() {
        text += &format!("truck {truck} opens with crusher {opening}\n");
    }
    if !story.rounds.is_empty() {
        text += "\n";
    }
    let mut next = 0;
    while let Some(round) = story.rounds.get(next) {
        let idle = story.rounds[next..].iter().take_while(|round| is_idle(round)).count();
        if idle == 0 {
            text += &round_text(round);
        } else {
            text += &idle_text(round.number, idle);
        }
        next += idle.max(1);
    }
    if story.cycle == Cycle::TwoRound {
        text += &totals_text(story);
    }
    text += "\nverdict\n";
    for sentence in sentences(story) {
        text += &format!("  {sentence}\n");
    }
    text
}

/// How many trucks and rounds there are, and the cycle where it is not the two-round one.
pub fn size_text(story: &Story) -> String {
    let (trucks, rounds) = (story.openings.len(), story.rounds.len());
    let size = format!("{}, {}", counted(trucks, "truck"), counted(rounds, "round"));
    match story.cycle {
        Cycle::TwoRound => size,
        Cycle::SixRound => size + " in the six-round cycle",
        other => format!("{size} in the cycle of {other}"),
    }
}

/// Whether no truck runs or stops in a round.
fn is_idle(round: &Round) -> bool {
    round.running().is_empty() && round.stopping().is_empty()
}

/// Rounds in a row in which no truck runs.
fn idle_text(first: u16, count: usize) -> String {
    match count {
        1 => format!("round {first}: no truck runs\n"),
        _ => format!("rounds {first} to {}: no truck runs\n", usize::from(first) + count - 1),
    }
}

/// A line for the round and one for each truck that runs or stops in it.
fn round_text(round: &Round) -> String {
    let message = match round.kind {
        RoundKind::Proposals => "proposal",
        RoundKind::Prepare => "estimate",
        RoundKind::Vetoes | RoundKind::Accept => "veto",
        _ => "message",
    };
    let name = match round.kind {
        RoundKind::Proposals | RoundKind::Vetoes => format!("{} ({message})", round.named()),
        _ => round.named(),
    };
    let mut text = format!(
        "{name}: {} of {} running, {} sent",
        round.running().count(),
        round.turns.len(),
        counted(round.senders.count(), message)
    );
    if !round.senders.is_empty() {
        text += &format!(" ({})", round.senders.named());
    }
    text += "\n";
    let width = number_width(round.turns.len());
    for (truck, turn) in round.turns.iter().enumerate().filter(|(_, turn)| turn.runs || turn.stops)
    {
        text += &format!("  truck {truck:<width$}  {}\n", turn_text(round, turn));
    }
    text
}

/// The digits of the highest number of so many trucks.
fn number_width(trucks: usize) -> usize {
    (trucks - 1).to_string().len()
}

/// How many messages each truck sent, and all of them.
fn totals_text(story: &Story) -> String {
    let width = number_width(story.end.len());
    let mut text = "\nsent\n".to_string();
    for (truck, Truck { sent, .. }) in story.end.iter().enumerate() {
        let sent = messages(sent.proposals.into(), sent.vetoes.into());
        text += &format!("  truck {truck:<width$}  {sent}\n");
    }
    let Counts { proposals, vetoes, .. } = counts(story);
    let indent = " ".repeat(width);
    text + &format!("  in all{indent}  {}\n", messages(proposals, vetoes))
}

/// What a truck did in a round and what came of it.
fn turn_text(round: &Round, turn: &Turn) -> String {
    let estimate = if turn.after == turn.before {
        turn.before.to_string()
    } else {
        format!("{} -> {}", turn.before, turn.after)
    };
    if turn.stops {
        return format!("{:<7}  estimate {estimate}", "stopped");
    }
    format!("{:<7}  estimate {estimate:<8}  {}", sent_text(turn.sent), fate_text(round, turn))
}

/// What a truck sent.
pub fn sent_text(sent: Option<Message>) -> String {
    match sent {
        None => "silent".to_string(),
        Some(Message::Value(value)) => format!("sent {value}"),
        Some(Message::Bit) => "sent".to_string(),
        Some(Message::Veto) => "vetoed".to_string(),
    }
}

/// What a running truck heard and missed, its mark, which classes it breaks, whether and on what it became unwilling, and its
/// decision.
pub fn fate_text(round: &Round, turn: &Turn) -> String {
    let mut parts = vec![heard_text(round.senders, turn)];
    if turn.false_mark {
        parts.push("false mark".to_string());
    } else if turn.marked {
        parts.push("mark".to_string());
    }
    let broken = Breaks::of(turn, round.senders.count()).names();
    if !broken.is_empty() {
        parts.push(format!("breaks {}", broken.join(", ")));
    }
    if turn.becomes_unwilling {
        let noticed = match (turn.heard.is_empty(), turn.marked) {
            (false, false) => "a message",
            (false, true) => "a message and a mark",
            (true, _) => "a mark",
        };
        parts.push(format!("became unwilling on {noticed}"));
    }
    if turn.decides {
        parts.push(format!("decided {}", turn.after));
    }
    parts.join("; ")
}

/// What a running truck heard of the senders.
fn heard_text(senders: TruckSet, turn: &Turn) -> String {
    match (senders.count(), turn.heard.count()) {
        (0, _) => "nothing to hear".to_string(),
        (sent, heard) if heard == sent => format!("heard {heard} of {sent}"),
        (sent, 0) => format!("heard 0 of {sent}, missed {}", turn.missed.named()),
        (sent, heard) => {
            let (from, missed) = (turn.heard.named(), turn.missed.named());
            format!("heard {heard} of {sent} ({from}), missed {missed}")
        }
    }
}
