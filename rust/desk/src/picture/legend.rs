//! What the symbols mean.

use rajvokshul::Cycle;

use crate::story::Story;

use super::layout::{text_width, Layout, MARGIN};
use super::shapes;

/// The height of a line of the legend.
const LINE: i32 = 24;

/// A symbol drawn with its middle at a place, and its meaning.
type Item = (Box<dyn Fn(i32, i32) -> String>, i32, String);

/// The legend below the rows, and its height: the crushers, and below them what the symbols mean.
pub fn legend(story: &Story, layout: &Layout) -> (String, i32) {
    let (wide, cycle) = (layout.scale.wide, story.cycle);
    let mut symbols = if wide { symbols(cycle) } else { ticks(cycle) };
    symbols.extend(lines(wide, cycle));
    let top = layout.rows_end() + 28;
    let mut y = top;
    let mut svg = format!("<g class=\"{}\">\n", layout.scale.group());
    for items in [crushers(story), symbols] {
        let mut x = MARGIN;
        for (draw, symbol, meaning) in items {
            let width = symbol + 6 + text_width(&meaning, 12);
            if x + width > layout.width - MARGIN {
                x = MARGIN;
                y += LINE;
            }
            svg += &draw(x + symbol / 2, y);
            let (text_x, text_y) = (x + symbol + 6, y + 4);
            svg += &format!(
                "<text class=\"meaning\" x=\"{text_x}\" y=\"{text_y}\">{meaning}</text>\n"
            );
            x += width + 16;
        }
        y += LINE;
    }
    (svg + "</g>\n", y - top + 14)
}

fn item(width: i32, meaning: &str, draw: impl Fn(i32, i32) -> String + 'static) -> Item {
    (Box::new(draw), width, meaning.to_string())
}

fn key(class: &str, shape: &str) -> String {
    format!("<path class=\"{class}\" d=\"{shape}\"/>\n")
}

/// The crushers that some truck opened with; no other is ever an estimate.
fn crushers(story: &Story) -> Vec<Item> {
    let used: Vec<u8> = (0..16).filter(|crusher| story.openings.contains(crusher)).collect();
    used.into_iter()
        .map(|crusher| {
            item(26, &format!("crusher {crusher}"), move |x, y| {
                format!(
                    "<rect class=\"key c{crusher}\" x=\"{}\" y=\"{}\" width=\"26\" height=\"16\" rx=\"3\"/>\n\
                     <text class=\"k-number t{crusher}\" x=\"{x}\" y=\"{}\">{crusher}</text>\n",
                    x - 13,
                    y - 8,
                    y + 4
                )
            })
        })
        .collect()
}

/// The symbols of wide rounds.
fn symbols(cycle: Cycle) -> Vec<Item> {
    let sent = |meaning: &str| item(14, meaning, |x, y| key("k-sent", &shapes::sent(x, y, 6)));
    let mut items = match cycle {
        Cycle::TwoRound => vec![sent("proposal sent")],
        _ => vec![
            sent("estimate sent"),
            item(10, "message sent in a bit round", |x, y| key("k-bit", &shapes::bit(x, y, 6))),
            item(14, "became unwilling", |x, y| key("k-unwilling", &shapes::unwilling(x, y, 6))),
        ],
    };
    items.extend([
        item(14, "veto sent", |x, y| key("k-veto", &shapes::veto(x, y, 5))),
        item(18, "so many messages missed", |x, y| {
            format!("<text class=\"k-missed\" x=\"{x}\" y=\"{}\">−2</text>\n", y + 4)
        }),
        item(12, "mark", |x, y| key("k-mark", &shapes::mark(x, y, 5))),
        item(12, "false mark (nothing missed)", |x, y| {
            key("k-mark k-false", &shapes::mark(x, y, 5))
        }),
        item(16, "decided", |x, y| key("k-decided", &shapes::decided(x, y, 7))),
        item(16, "stopped", |x, y| key("k-stopped", &shapes::block(x - 8, y - 8, 16, 16))),
    ]);
    items
}

/// The ticks of narrow rounds, with the lane they stand in.
fn ticks(cycle: Cycle) -> Vec<Item> {
    let sent = |meaning: &str| {
        item(10, meaning, |x, y| key("k-sent", &format!("M{} {}h8L{x} {}z", x - 4, y + 3, y - 4)))
    };
    let mut items = match cycle {
        Cycle::TwoRound => vec![sent("proposal sent (above the bar)")],
        _ => vec![
            sent("estimate sent (above the bar)"),
            item(10, "message sent in a bit round (above the bar)", |x, y| {
                key("k-bit", &shapes::block(x - 1, y - 4, 2, 7))
            }),
            item(10, "became unwilling (above the bar)", |x, y| {
                key("k-unwilling", &shapes::block(x - 4, y - 4, 8, 7))
            }),
        ],
    };
    items.extend([
        item(10, "veto sent (above the bar)", |x, y| {
            key("k-veto", &shapes::block(x - 3, y - 4, 6, 7))
        }),
        item(10, "messages missed (below the bar)", |x, y| {
            key("k-missed", &shapes::block(x - 4, y - 3, 8, 6))
        }),
        item(10, "mark (second lane below)", |x, y| {
            key("k-mark", &shapes::block(x - 4, y - 3, 8, 6))
        }),
        item(10, "false mark (nothing missed)", |x, y| {
            key("k-mark k-false", &shapes::block(x - 4, y - 3, 8, 6))
        }),
        item(16, "decided", |x, y| key("k-decided", &shapes::decided(x, y, 6))),
        item(12, "stopped", |x, y| key("k-stopped", &shapes::block(x - 5, y - 5, 10, 10))),
    ]);
    items
}

/// Lines and grounds.
fn lines(wide: bool, cycle: Cycle) -> Vec<Item> {
    let ground = match cycle {
        Cycle::TwoRound => "veto round (V); the others are for proposals (P)",
        Cycle::SixRound if wide => "accept round",
        Cycle::SixRound => "accept round; the five before it are prepare and bits 8, 4, 2, 1",
        _ => "last round of a cycle",
    };
    vec![
        item(26, "after a decision", |x, y| key("k-rest", &format!("M{} {y}h26", x - 13))),
        item(26, "after a stop", |x, y| key("k-off", &format!("M{} {y}h26", x - 13))),
        item(18, ground, |x, y| key("k-even", &shapes::block(x - 9, y - 8, 18, 16))),
    ]
}
