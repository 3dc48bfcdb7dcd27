//! The lines of a net, as the page names them.

use crate::running::Size;
use ups_tests::refinement;

/// A line: its name, whether it is a row, and which row or column of the net it is.
pub struct Line {
    pub name: String,
    row: bool,
    at: usize,
}

/// All lines, each row and column by its number and the four at the border by name too.
pub fn lines((w, h): Size) -> Vec<Line> {
    let line = |name: &str, row, at| Line {
        name: name.to_owned(),
        row,
        at,
    };
    let mut lines = vec![
        line("bottom", true, 0),
        line("top", true, h - 1),
        line("left", false, 0),
        line("right", false, w - 1),
    ];
    lines.extend((0..h).map(|j| line(&format!("row {j}"), true, j)));
    lines.extend((0..w).map(|i| line(&format!("column {i}"), false, i)));
    lines
}

impl Line {
    /// The places of the line in the grid after k steps, from its lower or left end on.
    pub fn places(&self, size: Size, k: usize, step: usize) -> impl Iterator<Item = Size> {
        let (w, h) = refinement::refined_size(size, k).expect("a size");
        let (row, fixed) = (self.row, 1024 * (self.at << k));
        let side = if row { w } else { h };
        let along = (0..=1024 * (side - 1)).step_by(step);
        along.map(move |t| if row { (t, fixed) } else { (fixed, t) })
    }
}
