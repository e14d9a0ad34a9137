//! What a run came to: grades, calm, counts and the closing sentences.

use rajvokshul::{Class, Cycle, Grades, RoundKind, State};

use crate::story::{hold, Failure, Round, Story, Turn};
use crate::trucks::{counted, TruckSet};

/// The classes of marks that one truck breaks in one round.
#[derive(Clone, Copy, Debug, PartialEq, Eq)]
pub struct Breaks {
    /// It missed a message without a mark.
    pub complete: bool,
    /// It heard at most half of the messages without a mark.
    pub majority: bool,
    /// It heard none of the messages without a mark.
    pub zero: bool,
    /// Its mark is false.
    pub accurate: bool,
}

impl Breaks {
    /// What a turn breaks in a round with `sent` messages. Only running trucks are judged.
    pub fn of(turn: &Turn, sent: usize) -> Breaks {
        let owes = turn.runs && !turn.marked && sent > 0;
        let heard = turn.heard.count();
        Breaks {
            complete: owes && heard < sent,
            majority: owes && 2 * heard <= sent,
            zero: owes && heard == 0,
            accurate: turn.false_mark,
        }
    }

    /// The broken classes by name.
    pub fn names(self) -> Vec<&'static str> {
        let all = [
            (self.complete, "complete"),
            (self.majority, "majority complete"),
            (self.zero, "zero complete"),
            (self.accurate, "accurate"),
        ];
        all.into_iter().filter(|(broken, _)| *broken).map(|(_, name)| name).collect()
    }
}

/// The trucks that break a class in a round.
fn breaking(round: &Round, broken: fn(Breaks) -> bool) -> TruckSet {
    let sent = round.senders.count();
    TruckSet::of(round.turns.len(), |i| broken(Breaks::of(&round.turns[i], sent)))
}

/// The first round that breaks each class, or 0, by the turns of the rounds.
pub fn grades_of(rounds: &[Round]) -> Grades {
    let first = |broken: fn(Breaks) -> bool| {
        let found = rounds.iter().find(|round| !breaking(round, broken).is_empty());
        found.map_or(0, |round| round.number)
    };
    Grades::default()
        .with_first_break(Class::Complete, first(|b| b.complete))
        .with_first_break(Class::Majority, first(|b| b.majority))
        .with_first_break(Class::Zero, first(|b| b.zero))
        .with_first_break(Class::Accurate, first(|b| b.accurate))
}

/// A round whose marks are less than agreement asks of it.
#[derive(Clone, Copy, Debug, PartialEq, Eq)]
pub struct Weak {
    /// Its number.
    pub round: u16,
    /// What its marks are not: majority complete in a round for proposals, zero complete in the others.
    pub class: &'static str,
    /// The trucks that lack a mark.
    pub trucks: TruckSet,
}

/// The first round whose marks are less than agreement asks for. Where there is none, agreement was guaranteed.
pub fn first_weak(rounds: &[Round]) -> Option<Weak> {
    rounds.iter().find_map(|round| {
        let (class, trucks) = match round.kind {
            RoundKind::Proposals => ("majority complete", breaking(round, |b| b.majority)),
            RoundKind::Vetoes | RoundKind::Prepare | RoundKind::Bit(_) | RoundKind::Accept => {
                ("zero complete", breaking(round, |b| b.zero))
            }
            // Nothing is known of what agreement asks of any other, so no less than all of it.
            _ => ("complete", breaking(round, |b| b.complete)),
        };
        (!trucks.is_empty()).then_some(Weak { round: round.number, class, trucks })
    })
}

/// The rounds that let the fine detector rest in the two-round cycle: in even ones agreement asks for no more than zero
/// complete marks. Even rounds in which no truck runs, and so no detector is used, are left out. The six-round cycle needs no
/// fine detector at all.
#[derive(Clone, Debug, Default, PartialEq, Eq)]
pub struct Resting {
    /// Their numbers.
    pub rounds: Vec<u16>,
    /// Those of them whose marks were zero complete and not majority complete.
    pub only_zero: Vec<u16>,
}

/// The rounds of a run that let the fine detector rest.
pub fn resting(rounds: &[Round]) -> Resting {
    let numbers = |of: fn(&Round) -> bool| {
        let vetoes = rounds.iter().filter(|round| round.kind == RoundKind::Vetoes);
        vetoes.filter(|round| of(round)).map(|round| round.number).collect()
    };
    Resting {
        rounds: numbers(|round| !round.running().is_empty()),
        only_zero: numbers(|round| {
            breaking(round, |b| b.zero).is_empty() && !breaking(round, |b| b.majority).is_empty()
        }),
    }
}

/// Rounds that are calm from `from` with `senders` (the paper's S and b): five, or eleven in the six-round cycle.
#[derive(Clone, Copy, Debug, PartialEq, Eq)]
pub struct Calm {
    /// The first of these rounds.
    pub from: u16,
    /// The last of them.
    pub last: u16,
    /// The least b for which they are calm.
    pub senders: usize,
}

/// How many rounds are calm together, in a number and in words, where that is known of a cycle.
fn calm_rounds(cycle: Cycle) -> Option<(usize, &'static str)> {
    match cycle {
        Cycle::TwoRound => Some((5, "five")),
        Cycle::SixRound => Some((11, "eleven")),
        _ => None,
    }
}

/// The first calm rounds, with the least b.
pub fn first_calm(story: &Story) -> Option<Calm> {
    let (count, _) = calm_rounds(story.cycle)?;
    story.rounds.windows(count).find_map(|calm| {
        let senders = calm_senders(calm)?;
        let from = calm[0].number;
        Some(Calm { from, last: from + count as u16 - 1, senders })
    })
}

/// The least b for which rounds are calm. A larger b asks for more rounds heard in full, so if any b will do, then the
/// least one that lets the rounds in which estimates are sent have their senders.
fn calm_senders(rounds: &[Round]) -> Option<usize> {
    let asked =
        rounds.iter().filter(|round| round.is_for_estimates() && !round.running().is_empty());
    let senders: Vec<usize> = asked.map(|round| round.senders.count()).collect();
    let b = senders.iter().copied().max().unwrap_or(0);
    let calm = |round: &Round| {
        let few = (1..=b).contains(&round.senders.count());
        round.turns.iter().all(|turn| !turn.false_mark && (!few || turn.missed.is_empty()))
    };
    (!senders.contains(&0) && rounds.iter().all(calm)).then_some(b)
}

/// Holds the derived grades against the proved ones, and the end against what is proved of every run: where no round is weak
/// decided trucks agree, and hold an opening; and after the calm rounds no truck runs.
pub fn hold_against_proofs(story: &Story) -> Result<(), Failure> {
    let derived = grades_of(&story.rounds);
    hold(derived == story.grades, || {
        format!("the grades are derived as {derived:?}, but are {:?}", story.grades)
    })?;
    let crushers = decided_crushers(story);
    hold(first_weak(&story.rounds).is_some() || crushers.len() < 2, || {
        "decided trucks differ, though the marks guarantee agreement".to_string()
    })?;
    for (crusher, trucks) in crushers {
        hold(story.openings.contains(&crusher), || {
            format!("{} decided crusher {crusher}, with which none opened", trucks.named())
        })?;
    }
    if let Some(calm) = first_calm(story) {
        let ended = story.end.iter().all(|truck| match truck.state {
            State::Running => false,
            State::Stopped(round) | State::Decided(round) => round <= calm.last,
        });
        hold(ended, || format!("a truck runs on after the calm rounds from {}", calm.from))?;
    }
    Ok(())
}

/// How often each thing happened. Proposals and vetoes are those of the two-round cycle.
#[derive(Clone, Copy, Debug, Default, PartialEq, Eq)]
pub struct Counts {
    /// Proposals sent.
    pub proposals: usize,
    /// Vetoes sent.
    pub vetoes: usize,
    /// Messages missed: one for each truck that misses it.
    pub missed: usize,
    /// Marks of running trucks, false ones included.
    pub marks: usize,
    /// False marks.
    pub false_marks: usize,
    /// Trucks that decided.
    pub decided: usize,
    /// Trucks that stopped.
    pub stopped: usize,
}

/// Counts a story.
pub fn counts(story: &Story) -> Counts {
    let mut counts = Counts::default();
    for round in &story.rounds {
        match round.kind {
            RoundKind::Proposals => counts.proposals += round.senders.count(),
            RoundKind::Vetoes => counts.vetoes += round.senders.count(),
            _ => {}
        }
    }
    for turn in story.rounds.iter().flat_map(|round| &round.turns) {
        counts.missed += turn.missed.count();
        counts.marks += usize::from(turn.marked);
        counts.false_marks += usize::from(turn.false_mark);
        counts.decided += usize::from(turn.decides);
        counts.stopped += usize::from(turn.stops);
    }
    counts
}

/// The crushers that were decided, least first, each with the trucks that decided it.
pub fn decided_crushers(story: &Story) -> Vec<(u8, TruckSet)> {
    let chosen = |crusher: u8| {
        TruckSet::of(story.end.len(), |i| {
            let truck = &story.end[i];
            matches!(truck.state, State::Decided(_)) && truck.estimate == crusher
        })
    };
    (0..16).map(|crusher| (crusher, chosen(crusher))).filter(|(_, set)| !set.is_empty()).collect()
}

/// The closing sentences: whether the marks guaranteed agreement, in which rounds the fine detector may rest if there are such,
/// what was decided, and whether there were calm rounds.
pub fn sentences(story: &Story) -> Vec<String> {
    let mut said = vec![agreement_sentence(story)];
    said.extend(resting_sentence(story));
    said.extend([decided_sentence(story), calm_sentence(story)]);
    said
}

fn agreement_sentence(story: &Story) -> String {
    let Some(weak) = first_weak(&story.rounds) else {
        let worth = match (story.cycle, story.grades.majority) {
            (Cycle::TwoRound, 0) => "majority complete in every round",
            (Cycle::TwoRound, _) => {
                "majority complete in odd rounds and zero complete in even ones"
            }
            (Cycle::SixRound, _) => "zero complete in every round",
            _ => "complete in every round",
        };
        return format!("Agreement was guaranteed: marks were {worth}.");
    };
    let round = &story.rounds[usize::from(weak.round) - 1];
    let sent = round.senders.count();
    let heard_of = |heard: usize| {
        let lacking = |i: usize| weak.trucks.has(i) && round.turns[i].heard.count() == heard;
        TruckSet::of(round.turns.len(), lacking)
    };
    let parts: Vec<String> = (0..=sent)
        .map(|heard| (heard, heard_of(heard)))
        .filter(|(_, trucks)| !trucks.is_empty())
        .map(|(heard, trucks)| {
            format!("{} heard {heard} of {}", trucks.named(), counted(sent, "message"))
        })
        .collect();
    format!(
        "Agreement was not guaranteed: marks were not {} in {}, where without a mark {}.",
        weak.class,
        round.named(),
        parts.join(", ")
    )
}

fn resting_sentence(story: &Story) -> Option<String> {
    let Resting { rounds, only_zero } = resting(&story.rounds);
    let last = rounds.last()?;
    let rest = listed(&rounds).unwrap_or_else(|| format!("even rounds, 2 to {last}"));
    let mut said = format!("The fine detector may rest in {rest}");
    if let Some(first) = only_zero.first() {
        let many = || format!("{} of these, first in round {first},", only_zero.len());
        let weaker = listed(&only_zero).unwrap_or_else(many);
        said += &format!("; in {weaker} marks were only zero complete");
    }
    Some(said + ".")
}

/// Up to three rounds by their numbers: `round 2`, `rounds 2, 4 and 6`.
fn listed(rounds: &[u16]) -> Option<String> {
    match rounds {
        [a] => Some(format!("round {a}")),
        [a, b] => Some(format!("rounds {a} and {b}")),
        [a, b, c] => Some(format!("rounds {a}, {b} and {c}")),
        _ => None,
    }
}

fn decided_sentence(story: &Story) -> String {
    let crushers = decided_crushers(story);
    let (count, decided) = (story.end.len(), counts(story).decided);
    let last = story.end.iter().filter_map(|truck| match truck.state {
        State::Decided(round) => Some(round),
        _ => None,
    });
    let last = last.max().unwrap_or(0);
    let who = if decided == count {
        "Every truck decided".to_string()
    } else {
        format!("{decided} of {} decided", counted(count, "truck"))
    };
    let what = match crushers.as_slice() {
        [] => return format!("No truck decided.{}", others(story)),
        [(crusher, _)] => format!(" crusher {crusher}, the last in round {last}"),
        several => {
            let each =
                several.iter().map(|(c, trucks)| format!("crusher {c} by {}", trucks.named()));
            format!(", but on different crushers: {}", each.collect::<Vec<_>>().join(", "))
        }
    };
    format!("{who}{what}.{}", others(story))
}

/// The trucks that did not decide.
fn others(story: &Story) -> String {
    let set = |of: fn(State) -> bool| TruckSet::of(story.end.len(), |i| of(story.end[i].state));
    let stopped = set(|state| matches!(state, State::Stopped(_)));
    let running = set(|state| state == State::Running);
    let mut said = String::new();
    if !stopped.is_empty() {
        said += &format!(" Stopped: {}.", stopped.named());
    }
    if !running.is_empty() {
        said += &format!(" Still running: {}.", running.named());
    }
    said
}

fn calm_sentence(story: &Story) -> String {
    let Some(Calm { from, last, senders }) = first_calm(story) else {
        return match calm_rounds(story.cycle) {
            Some((_, count)) => format!("No {count} rounds in a row were calm."),
            None => format!("Nothing is known of calm rounds in the cycle of {}.", story.cycle),
        };
    };
    let asked = match story.cycle {
        Cycle::TwoRound => "proposal",
        _ => "prepare",
    };
    let how = match senders {
        0 => format!("as no truck runs in a {asked} round of these"),
        b => format!("with at most {} in a {asked} round", counted(b, "sender")),
    };
    format!("Rounds {from} to {last} are calm, {how}: every truck has decided or stopped by round {last}.")
}
