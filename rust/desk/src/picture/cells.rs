//! Rounds that are wide enough for symbols: a cell for each round in which a truck runs.

use crate::story::{Message, Round, Story, Turn};
use crate::timeline::{fate_text, sent_text};

use super::layout::Layout;
use super::shapes;

/// All rounds of one truck.
pub fn rounds(story: &Story, layout: &Layout, truck: usize) -> String {
    story.rounds.iter().map(|round| cell(layout, truck, round)).collect()
}

fn cell(layout: &Layout, truck: usize, round: &Round) -> String {
    let turn = &round.turns[truck];
    let (x, y, width) = (layout.round_x(round.number), layout.bar_y(truck), layout.scale.cell);
    let middle = x + width / 2;
    if turn.stops {
        let half = layout.scale.bar / 2 - 2;
        let shape = shapes::block(middle - half, y + 2, 2 * half, 2 * half);
        let title = format!("<title>truck {truck}, {}: stopped</title>", round.named());
        return format!("<path class=\"stopped\" d=\"{shape}\">{title}</path>\n");
    }
    if !turn.runs {
        return String::new();
    }
    let mut svg = format!(
        "<g><title>{}</title><rect class=\"cell c{}\" x=\"{x}\" y=\"{y}\" width=\"{width}\" height=\"{}\"/>\n",
        tooltip(truck, round, turn),
        turn.after,
        layout.scale.bar
    );
    if turn.before != turn.after || turn.decides {
        svg += &layout.number(turn.after, middle, truck);
    }
    svg += &above(layout, truck, turn, middle);
    svg += &below(layout, truck, turn, x);
    svg + "</g>\n"
}

fn tooltip(truck: usize, round: &Round, turn: &Turn) -> String {
    let estimate = if turn.before == turn.after {
        format!("estimate {}", turn.after)
    } else {
        format!("estimate {} to {}", turn.before, turn.after)
    };
    let (sent, fate) = (sent_text(turn.sent), fate_text(round, turn));
    format!("truck {truck}, {}: {sent}; {estimate}; {fate}", round.named())
}

/// What is sent, or that the truck decides or becomes unwilling: it has sent nothing then.
fn above(layout: &Layout, truck: usize, turn: &Turn, x: i32) -> String {
    let half = layout.scale.above / 3;
    let y = layout.row_y(truck) + layout.scale.above / 2 + 1;
    match turn.sent {
        Some(Message::Value(_)) => path("sent", &shapes::sent(x, y, half)),
        Some(Message::Bit) => path("bit", &shapes::bit(x, y, half)),
        Some(Message::Veto) => path("veto", &shapes::veto(x, y, half - 1)),
        None if turn.becomes_unwilling => path("unwilling", &shapes::unwilling(x, y, half)),
        None if turn.decides => path("decided", &shapes::decided(x, y, half + 1)),
        None => String::new(),
    }
}

/// How many messages are missed, and the mark, side by side in the middle of the cell.
fn below(layout: &Layout, truck: usize, turn: &Turn, x: i32) -> String {
    let y = layout.bar_y(truck) + layout.scale.bar;
    let count = turn.missed.count();
    let missed = match count {
        0 => 0,
        1..=9 => 18,
        _ => 25,
    };
    let mark = if turn.marked { 9 } else { 0 };
    let left = x + (layout.scale.cell - missed - mark) / 2;
    let mut svg = String::new();
    if count > 0 {
        let (x, y) = (left + missed / 2, y + 13);
        svg += &format!("<text class=\"missed\" x=\"{x}\" y=\"{y}\">−{count}</text>\n");
    }
    if turn.marked {
        let class = if turn.false_mark { "mark false" } else { "mark" };
        svg += &path(class, &shapes::mark(left + missed + 5, y + 9, 4));
    }
    svg
}

/// An element with a class and a shape.
pub fn path(class: &str, shape: &str) -> String {
    format!("<path class=\"{class}\" d=\"{shape}\"/>\n")
}
