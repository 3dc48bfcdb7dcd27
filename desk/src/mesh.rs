//! The triangles of a surface with their points, all of them or of some columns and rows alone.

use crate::progress::Progress;
use crate::surface::{Point, Surface};
use ups::Refusal;

/// Triangles, and the points of their corners.
pub struct Mesh {
    /// The surface points of vertices, row by row, each the corner of a triangle.
    pub points: Vec<Point>,
    /// The numbers of the corners, counterclockwise by column and row: row by row and cell by cell,
    /// up before down.
    pub triangles: Vec<[u32; 3]>,
}

impl Mesh {
    /// The present triangles of the grid. Where `every` is above 1 only so many-th columns and rows
    /// are taken, and the last ones, and a triangle where all that it spans are present.
    pub fn of(surface: &Surface, every: usize) -> Result<Mesh, Refusal> {
        let (columns, rows) = (lines(surface.w, every), lines(surface.h, every));
        let mut triangles = triangles(surface, &columns, &rows);
        let mut used = vec![false; columns.len() * rows.len()];
        for corner in triangles.as_flattened() {
            used[*corner as usize] = true;
        }
        let mut points = Vec::new();
        let mut numbers = vec![0; used.len()];
        let mut progress = Progress::of(used.len(), false);
        for (n, _) in used.iter().enumerate().filter(|(_, used)| **used) {
            progress.done(n);
            numbers[n] = points.len() as u32;
            let (i, j) = (columns[n % columns.len()], rows[n / columns.len()]);
            points.push(surface.vertex(i, j)?);
        }
        for corner in triangles.as_flattened_mut() {
            *corner = numbers[*corner as usize];
        }
        Ok(Mesh { points, triangles })
    }
}

/// The columns or rows that are taken: every so many-th, and the last.
pub fn lines(side: usize, every: usize) -> Vec<usize> {
    let last = side - 1;
    (0..last).step_by(every).chain([last]).collect()
}

/// The triangles by the numbers of their corners among all that the columns and rows have.
fn triangles(surface: &Surface, columns: &[usize], rows: &[usize]) -> Vec<[u32; 3]> {
    let mut triangles = Vec::new();
    let count = columns.len();
    for (b, rows) in rows.windows(2).enumerate() {
        for (a, columns) in columns.windows(2).enumerate() {
            let cell = Cell::of(columns, rows);
            let first = b * count + a;
            let up = [first, first + 1, first + count];
            // Not in the order of its corners, which turns the other way.
            let down = [first + 1, first + count + 1, first + count];
            for (is_down, corners) in [(false, up), (true, down)] {
                if cell.has(surface, is_down) {
                    triangles.push(corners.map(|n| n as u32));
                }
            }
        }
    }
    triangles
}

/// The cells of the grid between two columns and two rows.
struct Cell {
    i: usize,
    j: usize,
    wide: usize,
    high: usize,
}

impl Cell {
    fn of(columns: &[usize], rows: &[usize]) -> Cell {
        let (i, j) = (columns[0], rows[0]);
        let (wide, high) = (columns[1] - i, rows[1] - j);
        Cell { i, j, wide, high }
    }

    /// Whether all triangles that one of its two spans are present.
    fn has(&self, surface: &Surface, down: bool) -> bool {
        if surface.outline().is_none() {
            return true;
        }
        let cells = (0..self.high).flat_map(|b| (0..self.wide).map(move |a| (a, b)));
        let mut fine = cells.flat_map(|(a, b)| [(a, b, false), (a, b, true)]);
        fine.all(|(a, b, fine_down)| {
            !self.spans(down, a, b, fine_down) || surface.has(self.i + a, self.j + b, fine_down)
        })
    }

    /// Whether one of its two triangles spans a triangle of cell (a, b) of it: those on its side of
    /// the diagonal, or all where the diagonal goes through triangles. The up triangle is below the
    /// diagonal where a + b < wide, the down triangle where a + b + 1 < wide.
    fn spans(&self, down: bool, a: usize, b: usize, fine_down: bool) -> bool {
        self.wide != self.high || down == (a + b + usize::from(fine_down) >= self.wide)
    }
}
