//! A net after some steps of refining, with the outline that it may have.

use ups::{lent, refined_numbers, refined_triangles, scratch_numbers, side_after, triangles};
use ups::{Net, Refusal, EDGE, POINT};

/// x, y, z in units of 1/1024 mm.
pub type Point = [i32; POINT];

/// A coordinate in millimetres: exact, and shown with all its digits, of which it has at most 15.
pub fn millimetres(units: i32) -> f64 {
    f64::from(units) / 1024.0
}

/// The numbers of an accepted net, and its outline.
pub struct Surface {
    pub w: usize,
    pub h: usize,
    numbers: Vec<i32>,
    outline: Option<Vec<u8>>,
}

impl Surface {
    /// The net after k steps; its outline, where there is one, is refined with it.
    pub fn refined(net: &Net, outline: Option<&[u8]>, k: usize) -> Result<Surface, Refusal> {
        let (w, h) = (net.width(), net.height());
        let mut numbers = vec![0; refined_numbers(w, h, k)];
        let mut scratch = vec![0; scratch_numbers(w, h, k)];
        let (from, out, by) = (net.numbers(), &mut numbers, &mut scratch);
        let outline = match outline {
            None => {
                lent::refine(from, w, h, k, out, by)?;
                None
            }
            Some(outline) => {
                let mut fine = vec![0; refined_triangles(w, h, k)];
                let search = &mut vec![0; triangles(w, h)];
                lent::refine_outlined(from, w, h, k, outline, out, by, &mut fine, search)?;
                Some(fine)
            }
        };
        let (w, h) = (side_after(w, k), side_after(h, k));
        Ok(Surface {
            w,
            h,
            numbers,
            outline,
        })
    }

    /// The numbers of the net, row by row.
    pub fn numbers(&self) -> &[i32] {
        &self.numbers
    }

    /// The outline, where there is one.
    pub fn outline(&self) -> Option<&[u8]> {
        self.outline.as_deref()
    }

    /// The surface point at place (p, q), whether it is on the door or not.
    pub fn point(&self, p: usize, q: usize) -> Result<Point, Refusal> {
        let mut point = [0; POINT];
        lent::surface_point(&self.numbers, self.w, self.h, p, q, &mut point)?;
        Ok(point)
    }

    /// The surface point at vertex (i, j).
    pub fn vertex(&self, i: usize, j: usize) -> Result<Point, Refusal> {
        self.point(i.saturating_mul(EDGE), j.saturating_mul(EDGE))
    }

    /// Whether a triangle of cell (i, j) of the grid is present.
    pub fn has(&self, i: usize, j: usize, down: bool) -> bool {
        if i + 1 >= self.w || j + 1 >= self.h {
            return false;
        }
        let byte = 2 * (j * (self.w - 1) + i) + usize::from(down);
        match &self.outline {
            None => true,
            Some(outline) => outline.get(byte) == Some(&1),
        }
    }

    /// Whether place (p, q) of the grid is on the door: a present triangle holds it. It can only be
    /// one of the place's cell and of the cells before that.
    pub fn holds(&self, p: usize, q: usize) -> bool {
        if self.outline.is_none() {
            return true;
        }
        let cells = |x: usize| {
            let cell = x / EDGE;
            [Some(cell), cell.checked_sub(1)].into_iter().flatten()
        };
        cells(p).any(|i| cells(q).any(|j| self.cell_holds(i, j, p - EDGE * i, q - EDGE * j)))
    }

    /// Whether a present triangle of cell (i, j) holds the place f and g beyond its first corner.
    fn cell_holds(&self, i: usize, j: usize, f: usize, g: usize) -> bool {
        let up = f + g <= EDGE;
        let down = f <= EDGE && g <= EDGE && f + g >= EDGE;
        up && self.has(i, j, false) || down && self.has(i, j, true)
    }
}
