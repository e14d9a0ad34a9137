//! Where everything stands, in pixels of the picture at its natural size.

use rajvokshul::Cycle;

use crate::story::Story;

use super::summary;

/// The free edge of the picture.
pub const MARGIN: i32 = 16;
/// The width of the column with the openings.
pub const OPENING: i32 = 40;
/// The width of the trucks' names.
const NAMES: i32 = 62;
/// The width of what stands to the right of the rounds.
const ENDS: i32 = 172;
/// The least width of a picture, so that legend and verdict have room.
const LEAST_WIDTH: i32 = 720;

/// The sizes of a round and of a row.
pub struct Scale {
    /// The width of a round.
    pub cell: i32,
    /// The height above a bar, for what is sent.
    pub above: i32,
    /// The height of a bar.
    pub bar: i32,
    /// The height below a bar, for what is missed and for marks.
    pub below: i32,
    /// Whether a round is wide enough for symbols.
    pub wide: bool,
}

impl Scale {
    /// Sizes for a story's number of trucks and rounds. The names of rounds take more room than the letters of two.
    fn of(story: &Story) -> Scale {
        let (trucks, rounds) = (story.openings.len(), story.rounds.len().max(1) as i32);
        let least = match story.cycle {
            Cycle::TwoRound => 36,
            _ => 44,
        };
        let fill = (LEAST_WIDTH - 2 * MARGIN - NAMES - OPENING - ENDS) / rounds;
        if rounds <= 24 && trucks <= 12 {
            return Scale { cell: fill.clamp(46, 84), above: 18, bar: 20, below: 20, wide: true };
        }
        if rounds <= 52 {
            return Scale {
                cell: fill.clamp(least, 84),
                above: 15,
                bar: 16,
                below: 17,
                wide: true,
            };
        }
        Scale { cell: (2000 / rounds).clamp(5, 16), above: 7, bar: 12, below: 13, wide: false }
    }

    /// The height of a row.
    pub fn row(&self) -> i32 {
        self.above + self.bar + self.below
    }

    /// The class of a group of symbols: symbols of wide rounds or ticks of narrow ones.
    pub fn group(&self) -> &'static str {
        if self.wide {
            "symbols"
        } else {
            "ticks"
        }
    }

    /// Every so many rounds have their number in the head.
    pub fn label_step(&self, cycle: Cycle) -> u16 {
        let fives = match cycle {
            Cycle::TwoRound => 5,
            _ => cycle.rounds(),
        };
        match self.cell {
            30.. => 1,
            12.. => fives,
            _ => 2 * fives,
        }
    }
}

/// Places of the parts of one picture.
pub struct Layout {
    /// The sizes of a round and of a row.
    pub scale: Scale,
    /// The width of the picture.
    pub width: i32,
    /// Where the first row begins.
    pub rows_top: i32,
    trucks: i32,
    rounds: i32,
}

impl Layout {
    /// The places for a story.
    pub fn of(story: &Story) -> Layout {
        let scale = Scale::of(story);
        let (trucks, rounds) = (story.openings.len() as i32, story.rounds.len() as i32);
        let columns = 2 * MARGIN + NAMES + OPENING + rounds * scale.cell + ENDS;
        let summary = 2 * MARGIN + text_width(&summary(story), 12);
        let width = columns.max(summary).max(LEAST_WIDTH);
        Layout { scale, width, rows_top: 138, trucks, rounds }
    }

    /// The left edge of the column of openings.
    pub fn opening_x(&self) -> i32 {
        MARGIN + NAMES
    }

    /// The left edge of a round counted from 1.
    pub fn round_x(&self, round: u16) -> i32 {
        MARGIN + NAMES + OPENING + (i32::from(round) - 1) * self.scale.cell
    }

    /// The left edge of how the trucks ended.
    pub fn end_x(&self) -> i32 {
        MARGIN + NAMES + OPENING + self.rounds * self.scale.cell + 18
    }

    /// The top of a truck's row.
    pub fn row_y(&self, truck: usize) -> i32 {
        self.rows_top + truck as i32 * self.scale.row()
    }

    /// The top of a truck's bar.
    pub fn bar_y(&self, truck: usize) -> i32 {
        self.row_y(truck) + self.scale.above
    }

    /// The base line of text beside or in a truck's bar.
    pub fn text_y(&self, truck: usize) -> i32 {
        self.bar_y(truck) + self.scale.bar / 2 + 4
    }

    /// Where the last row ends.
    pub fn rows_end(&self) -> i32 {
        self.rows_top + self.trucks * self.scale.row()
    }

    /// A crusher's number in a bar.
    pub fn number(&self, crusher: u8, middle: i32, truck: usize) -> String {
        let y = self.text_y(truck);
        format!("<text class=\"number t{crusher}\" x=\"{middle}\" y=\"{y}\">{crusher}</text>\n")
    }

    /// A text to the right of a stretch, or to its left where the picture ends too soon.
    pub fn beside(&self, class: &str, text: &str, stretch: (i32, i32), y: i32) -> String {
        let (x, anchor) = if stretch.1 + 6 + text_width(text, 12) <= self.width - MARGIN {
            (stretch.1 + 6, "start")
        } else {
            (stretch.0 - 6, "end")
        };
        format!(
            "<text class=\"{class}\" x=\"{x}\" y=\"{y}\" text-anchor=\"{anchor}\">{text}</text>\n"
        )
    }

    /// What the head says of the columns.
    pub fn head_labels(&self) -> String {
        let y = self.rows_top - 20;
        let (opens, ends) = (self.opening_x() + OPENING / 2 - 4, self.end_x());
        format!(
            "<text class=\"head\" x=\"{MARGIN}\" y=\"{y}\">round</text>\n\
             <text class=\"axis\" x=\"{opens}\" y=\"{y}\">opens</text>\n\
             <text class=\"head\" x=\"{ends}\" y=\"{y}\">after the last round</text>\n"
        )
    }
}

/// How wide a text comes out at most, in a sans-serif face of a size.
pub fn text_width(text: &str, size: i32) -> i32 {
    text.chars().count() as i32 * size * 6 / 10
}

/// A text in lines that are no wider than the room.
pub fn wrapped(text: &str, room: i32, size: i32) -> Vec<String> {
    let mut lines: Vec<String> = Vec::new();
    for word in text.split(' ') {
        match lines.last_mut() {
            Some(line) if text_width(line, size) + text_width(word, size) + size <= room => {
                line.push(' ');
                line.push_str(word);
            }
            _ => lines.push(word.to_string()),
        }
    }
    lines
}
