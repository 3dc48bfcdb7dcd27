//! A line of the net: a row or a column of its vertices.

use ups::{Refusal, EDGE};

/// A line by its name.
#[derive(Clone, Copy, Debug, PartialEq, Eq)]
pub enum Line {
    Bottom,
    Top,
    Left,
    Right,
    Row(usize),
    Column(usize),
}

impl Line {
    /// What a line can be named by.
    pub const NAMES: &'static str = "bottom, top, left, right, row J or column I";

    /// The line of a word, with the number that `row` and `column` have.
    pub fn named(word: &str, at: Option<usize>) -> Option<Line> {
        match (word, at) {
            ("bottom", None) => Some(Line::Bottom),
            ("top", None) => Some(Line::Top),
            ("left", None) => Some(Line::Left),
            ("right", None) => Some(Line::Right),
            ("row", Some(j)) => Some(Line::Row(j)),
            ("column", Some(i)) => Some(Line::Column(i)),
            _ => None,
        }
    }

    /// The words that name it.
    pub fn name(self) -> String {
        match self {
            Line::Bottom => "bottom".to_owned(),
            Line::Top => "top".to_owned(),
            Line::Left => "left".to_owned(),
            Line::Right => "right".to_owned(),
            Line::Row(j) => format!("row {j}"),
            Line::Column(i) => format!("column {i}"),
        }
    }

    /// Where the line runs in a net of w by h, of an accepted size.
    pub fn course(self, w: usize, h: usize) -> Result<Course, Refusal> {
        let (across, at) = match self {
            Line::Bottom => (true, 0),
            Line::Top => (true, h - 1),
            Line::Row(j) => (true, j),
            Line::Left => (false, 0),
            Line::Right => (false, w - 1),
            Line::Column(i) => (false, i),
        };
        let (along, beside) = if across { (w, h) } else { (h, w) };
        if at >= beside {
            return Err(Refusal::PLACE);
        }
        let edges = along - 1;
        Ok(Course { across, at, edges })
    }
}

/// The course of a line in a net: a row where it runs across, else a column.
#[derive(Clone, Copy, Debug)]
pub struct Course {
    across: bool,
    at: usize,
    /// The edges of the net along the line.
    pub edges: usize,
}

impl Course {
    /// The 1,024ths from end to end in the grid after k steps.
    pub fn length(self, k: usize) -> usize {
        (self.edges * EDGE) << k
    }

    /// The place of the grid after k steps that is so many 1,024ths from the lower or left end.
    pub fn place(self, k: usize, from_end: usize) -> (usize, usize) {
        let at = (self.at * EDGE) << k;
        match self.across {
            true => (from_end, at),
            false => (at, from_end),
        }
    }
}
