//! Many rounds: equal estimates in a row are one bar, and what happens in a round is a tick in a lane.

use crate::story::{Message, Round, Story, Turn};

use super::cells::path;
use super::layout::Layout;
use super::shapes;

/// The height of a lane below the bar.
const LANE: i32 = 4;

/// All rounds of one truck.
pub fn rounds(story: &Story, layout: &Layout, truck: usize) -> String {
    let running: Vec<&Round> =
        story.rounds.iter().filter(|round| round.turns[truck].runs).collect();
    let mut svg = String::new();
    for equal in running.chunk_by(|a, b| a.turns[truck].after == b.turns[truck].after) {
        svg += &bar(layout, truck, equal);
    }
    svg += &format!("<g class=\"{}\">\n", layout.scale.group());
    for round in &story.rounds {
        svg += &ticks(layout, truck, round);
    }
    svg + "</g>\n"
}

/// A bar with its crusher's number, again and again if it is long.
fn bar(layout: &Layout, truck: usize, equal: &[&Round]) -> String {
    let (Some(first), Some(last)) = (equal.first(), equal.last()) else {
        return String::new();
    };
    let (first, last, crusher) = (first.number, last.number, first.turns[truck].after);
    let (x, end_x) = (layout.round_x(first), layout.round_x(last + 1));
    let (y, width, height) = (layout.bar_y(truck), end_x - x, layout.scale.bar);
    let mut svg = format!(
        "<rect class=\"bar c{crusher}\" x=\"{x}\" y=\"{y}\" width=\"{width}\" height=\"{height}\">\
         <title>truck {truck}, rounds {first} to {last}: estimate {crusher}</title></rect>\n"
    );
    if width < 18 {
        svg += &small_number(layout, truck, crusher, x + width / 2, width - 2);
        return svg;
    }
    let mut at = x + 10;
    while at + 8 <= end_x {
        svg += &layout.number(crusher, at, truck);
        at += 50 * layout.scale.cell;
    }
    svg
}

/// A crusher's number in a bar of a few rounds.
fn small_number(layout: &Layout, truck: usize, crusher: u8, middle: i32, room: i32) -> String {
    let y = layout.text_y(truck);
    let fit = match crusher {
        10.. => format!(" textLength=\"{room}\" lengthAdjust=\"spacingAndGlyphs\""),
        _ => String::new(),
    };
    format!("<text class=\"small t{crusher}\" x=\"{middle}\" y=\"{y}\"{fit}>{crusher}</text>\n")
}

/// What happens to a truck in one round.
fn ticks(layout: &Layout, truck: usize, round: &Round) -> String {
    let turn = &round.turns[truck];
    let (x, y) = (layout.round_x(round.number), layout.bar_y(truck));
    if turn.stops {
        return path("stopped", &shapes::block(x, y + 1, 10, 10));
    }
    if !turn.runs {
        return String::new();
    }
    let width = layout.scale.cell - 1;
    let mut svg = above(turn, x, y, width);
    let lanes = y + layout.scale.bar + 1;
    if !turn.missed.is_empty() {
        svg += &path("missed", &shapes::block(x, lanes, width, LANE));
    }
    if turn.false_mark {
        svg += &path("mark false", &hollow(x, lanes + LANE + 1, width, LANE));
    } else if turn.marked {
        svg += &path("mark", &shapes::block(x, lanes + LANE + 1, width, LANE));
    }
    svg
}

/// A box that is drawn by its edge, a pixel wide.
fn hollow(x: i32, y: i32, width: i32, height: i32) -> String {
    format!("M{x}.5 {y}.5h{}v{}h-{}z", width - 1, height - 1, width - 1)
}

/// What is sent, that the truck becomes unwilling, or the tick of a decision, which reaches over the rounds after it.
fn above(turn: &Turn, x: i32, y: i32, width: i32) -> String {
    match turn.sent {
        Some(Message::Value(_)) => {
            path("sent", &format!("M{x} {}h{width}L{} {}z", y - 1, x + width / 2, y - 6))
        }
        Some(Message::Bit) => path("bit", &shapes::block(x + width / 2 - 1, y - 6, 2, 5)),
        Some(Message::Veto) => path("veto", &shapes::block(x, y - 6, width, 5)),
        None if turn.becomes_unwilling => path("unwilling", &hollow(x, y - 6, width, 5)),
        None if turn.decides => path("decided", &shapes::decided(x + 6, y - 4, 5)),
        None => String::new(),
    }
}
