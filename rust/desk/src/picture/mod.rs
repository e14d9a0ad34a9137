//! The SVG picture of `desk picture`: trucks down, rounds across.
//!
//! A truck is a bar in the colour of its estimate's crusher. Above the bar stands what it sent, below it what it missed
//! and its marks, so that no symbol lies on a colour. Where the rounds are too many for symbols, each round is a narrow
//! column, equal rounds are one bar, and what happened in a round is a tick. Every event is one element, with a class.

mod bars;
mod cells;
mod layout;
mod legend;
mod shapes;
mod style;

use rajvokshul::{Cycle, RoundKind, State};

use crate::story::{Round, Story};
use crate::timeline::size_text;
use crate::trucks::{counted, grouped, messages};
use crate::verdict::{counts, first_calm, first_weak, sentences};

use layout::{wrapped, Layout};

/// The picture of a whole run.
pub fn picture(story: &Story) -> String {
    let layout = Layout::of(story);
    let verdict = verdict(story, &layout);
    let (legend, legend_height) = legend::legend(story, &layout);
    let verdict_top = layout.rows_end() + 22 + legend_height;
    let height = verdict_top + 20 * verdict.len() as i32 + 6;
    let width = layout.width;
    let mut svg = format!(
        "<svg xmlns=\"http://www.w3.org/2000/svg\" width=\"{width}\" height=\"{height}\" viewBox=\"0 0 {width} {height}\" \
         role=\"img\" aria-labelledby=\"title desc\">\n<title id=\"title\">{}</title>\n<desc id=\"desc\">{}</desc>\n\
         <style>\n{}</style>\n<rect class=\"paper\" width=\"{width}\" height=\"{height}\"/>\n",
        size_text(story),
        description(story),
        style::sheet()
    );
    svg += &heading(story);
    svg += &bands(story, &layout);
    svg += &columns(story, &layout);
    svg += &highlights(story, &layout);
    for truck in 0..story.openings.len() {
        svg += &row(story, &layout, truck);
    }
    svg += &legend;
    for (line, text) in verdict.iter().enumerate() {
        let y = verdict_top + 20 * line as i32 + 8;
        svg +=
            &format!("<text class=\"verdict\" x=\"{}\" y=\"{y}\">{text}</text>\n", layout::MARGIN);
    }
    svg + "</svg>\n"
}

/// Who ended how, and what was sent (in two rounds), missed and marked: one line, which the picture is wide enough for.
fn summary(story: &Story) -> String {
    let counts = counts(story);
    let running = story.openings.len() - counts.decided - counts.stopped;
    let sent = match story.cycle {
        Cycle::TwoRound => messages(counts.proposals, counts.vetoes) + ", ",
        _ => String::new(),
    };
    format!(
        "{} decided, {} stopped, {running} running; {sent}{} missed, {} ({} false)",
        counts.decided,
        counts.stopped,
        counted(counts.missed, "message"),
        counted(counts.marks, "mark"),
        grouped(counts.false_marks)
    )
}

fn description(story: &Story) -> String {
    format!("{}. {}", summary(story), sentences(story).join(" "))
}

fn heading(story: &Story) -> String {
    let x = layout::MARGIN;
    format!(
        "<text class=\"title\" x=\"{x}\" y=\"32\">{}</text>\n<text class=\"summary\" x=\"{x}\" y=\"54\">{}</text>\n",
        size_text(story),
        summary(story)
    )
}

/// The verdict in lines that fit.
fn verdict(story: &Story, layout: &Layout) -> Vec<String> {
    let room = layout.width - 2 * layout::MARGIN;
    sentences(story).iter().flat_map(|sentence| wrapped(sentence, room, 14)).collect()
}

/// A ground for every second truck, so that the eye keeps to its row.
fn bands(story: &Story, layout: &Layout) -> String {
    let (x, width) = (layout::MARGIN / 2, layout.width - layout::MARGIN);
    let height = layout.scale.row();
    let band = |truck: usize| {
        let y = layout.row_y(truck);
        format!(
            "<rect class=\"band\" x=\"{x}\" y=\"{y}\" width=\"{width}\" height=\"{height}\"/>\n"
        )
    };
    (1..story.openings.len()).step_by(2).map(band).collect()
}

/// The head of the columns: numbers, kinds, and a ground for the last round of each cycle.
fn columns(story: &Story, layout: &Layout) -> String {
    let mut svg = format!("<g class=\"{}\">\n", layout.scale.group());
    let (top, end) = (layout.rows_top, layout.rows_end());
    for round in &story.rounds {
        let class = match round.kind {
            RoundKind::Vetoes => "even",
            RoundKind::Accept => "accept",
            _ => continue,
        };
        let (x, width) = (layout.round_x(round.number), layout.scale.cell);
        let (y, height) = (top - 16, end - top + 16);
        svg += &format!(
            "<rect class=\"{class}\" x=\"{x}\" y=\"{y}\" width=\"{width}\" height=\"{height}\"/>\n"
        );
    }
    let step = layout.scale.label_step(story.cycle);
    for round in &story.rounds {
        svg += &kind(layout, round);
        if round.number % step == 0 || round.number == 1 {
            let middle = layout.round_x(round.number) + layout.scale.cell / 2;
            let y = top - 20;
            svg +=
                &format!("<text class=\"axis\" x=\"{middle}\" y=\"{y}\">{}</text>\n", round.number);
            if !layout.scale.wide {
                svg += &format!("<path class=\"tick\" d=\"M{middle} {}V{end}\"/>\n", top - 16);
            }
        }
    }
    svg + "</g>\n" + &layout.head_labels()
}

/// What a round is for: a letter in two rounds, the name in six. A narrow round of six has a letter or a bit's worth where
/// there is room, and its name where its head is pointed at.
fn kind(layout: &Layout, round: &Round) -> String {
    let (wide, cell) = (layout.scale.wide, layout.scale.cell);
    let (x, top) = (layout.round_x(round.number), layout.rows_top);
    let short = match round.kind {
        RoundKind::Proposals | RoundKind::Prepare => "P".to_string(),
        RoundKind::Vetoes => "V".to_string(),
        RoundKind::Bit(worth) => worth.to_string(),
        RoundKind::Accept => "A".to_string(),
        other => other.to_string().chars().take(1).collect(),
    };
    let text = |said: &str| {
        let (middle, y) = (x + cell / 2, top - 4);
        format!("<text class=\"kind\" x=\"{middle}\" y=\"{y}\">{said}</text>\n")
    };
    match round.kind {
        RoundKind::Proposals | RoundKind::Vetoes if wide => return text(&short),
        RoundKind::Proposals | RoundKind::Vetoes => return String::new(),
        _ if wide => return text(&round.kind.to_string()),
        _ => {}
    }
    let short = if cell >= 8 { text(&short) } else { String::new() };
    format!(
        "{short}<rect class=\"round\" x=\"{x}\" y=\"{}\" width=\"{cell}\" height=\"16\">\
         <title>{}</title></rect>\n",
        top - 16,
        round.named()
    )
}

/// One truck: its number, its opening, its rounds and how it ended; in two rounds pointing at the end shows how much it sent.
fn row(story: &Story, layout: &Layout, truck: usize) -> String {
    let scale = &layout.scale;
    let opening = story.openings[truck];
    let (bar_y, text_y) = (layout.bar_y(truck), layout.text_y(truck));
    let mut svg = format!(
        "<text class=\"truck\" x=\"{}\" y=\"{text_y}\">truck {truck}</text>\n",
        layout::MARGIN
    );
    let (x, width) = (layout.opening_x(), layout::OPENING - 8);
    svg += &format!(
        "<rect class=\"opening c{opening}\" x=\"{x}\" y=\"{bar_y}\" width=\"{width}\" height=\"{}\" rx=\"3\"/>\n",
        scale.bar
    );
    svg += &layout.number(opening, x + width / 2, truck);
    svg += &if scale.wide {
        cells::rounds(story, layout, truck)
    } else {
        bars::rounds(story, layout, truck)
    };
    let end = &story.end[truck];
    svg += &rest(story, layout, truck);
    let how = match end.state {
        State::Running => format!("running {}", end.estimate),
        State::Stopped(round) => format!("stopped {}, round {round}", end.estimate),
        State::Decided(round) => format!("decided {}, round {round}", end.estimate),
    };
    let sent = match story.cycle {
        Cycle::TwoRound => {
            let sent = messages(end.sent.proposals.into(), end.sent.vetoes.into());
            format!("<title>truck {truck} sent {sent}</title>")
        }
        _ => String::new(),
    };
    let x = layout.end_x();
    svg + &format!("<text class=\"end\" x=\"{x}\" y=\"{text_y}\">{sent}{how}</text>\n")
}

/// The rounds after a decision or a stop: a thin line.
fn rest(story: &Story, layout: &Layout, truck: usize) -> String {
    let end = &story.end[truck];
    let last = story.rounds.len() as u16;
    let from = match end.state {
        State::Stopped(round) | State::Decided(round) if round < last => round + 1,
        _ => return String::new(),
    };
    let (x, end_x) = (layout.round_x(from), layout.round_x(last + 1));
    let y = layout.bar_y(truck) + layout.scale.bar / 2;
    if matches!(end.state, State::Stopped(_)) {
        return format!("<path class=\"rest off\" d=\"M{x} {y}H{end_x}\"/>\n");
    }
    format!(
        "<rect class=\"rest c{}\" x=\"{x}\" y=\"{}\" width=\"{}\" height=\"4\"/>\n",
        end.estimate,
        y - 2,
        end_x - x
    )
}

/// The first round whose marks are less than agreement asks for, and calm rounds, each with its name above the round numbers.
fn highlights(story: &Story, layout: &Layout) -> String {
    let mut svg = String::new();
    let (top, end) = (layout.rows_top, layout.rows_end());
    if let Some(weak) = first_weak(&story.rounds) {
        let (x, width) = (layout.round_x(weak.round), layout.scale.cell);
        let (y, height) = (top - 34, end - top + 36);
        svg += &format!(
            "<rect class=\"broken\" x=\"{x}\" y=\"{y}\" width=\"{width}\" height=\"{height}\" rx=\"2\"/>\n"
        );
        let said = format!("round {}: not {}", weak.round, weak.class);
        svg += &layout.beside("broken-label", &said, (x, x + width), y - 2);
    }
    if let Some(calm) = first_calm(story) {
        let (x, end_x) = (layout.round_x(calm.from), layout.round_x(calm.last + 1));
        let y = top - 58;
        svg += &format!("<path class=\"calm\" d=\"M{} {}v-6H{}v6\"/>\n", x + 1, y + 6, end_x - 1);
        let said = format!("calm, rounds {} to {}", calm.from, calm.last);
        svg += &layout.beside("calm-label", &said, (x, end_x), y + 8);
    }
    svg
}
