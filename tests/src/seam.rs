//! One place of a net on both sides of a seam, where the net after k steps meets the net after l:
//! the definitions in exact rationals.

use crate::oracle::{self, Faults, Net, EDGE, POINT_NUMBERS};
use crate::rational::Rational;
use crate::refinement;

/// Numbers of two points.
pub const SEAM_NUMBERS: usize = 2 * POINT_NUMBERS;

type Size = (usize, usize);

/// A place of the grid after k steps.
#[derive(Clone, Copy, Debug, PartialEq, Eq)]
pub struct RefinedPlace {
    pub k: usize,
    pub place: Size,
}

/// A question: the places on both sides, and the lengths of what is lent beside the outputs for
/// the refined nets.
#[derive(Clone, Copy, Debug, PartialEq, Eq)]
pub struct Seam {
    pub places: [RefinedPlace; 2],
    pub scratch_lens: [usize; 2],
    pub points_len: usize,
}

/// An answer: the refined nets on both sides, and a point of each.
#[derive(Clone, Debug, PartialEq, Eq)]
pub struct Sides {
    pub nets: [Vec<i32>; 2],
    pub points: [[i32; POINT_NUMBERS]; 2],
}

impl RefinedPlace {
    /// p and q in edges of the starting net, of which each has 1024 times 2^k parts.
    fn in_edges(self) -> [Rational; 2] {
        let (p, q) = self.place;
        [p, q].map(|x| Rational::new(x as i128, EDGE << self.k))
    }

    fn on_grid(self, size: Size) -> bool {
        let (p, q) = self.place;
        let refined = refinement::refined_size(size, self.k);
        refined.is_some_and(|(w, h)| !oracle::no_place(w, h, p, q))
    }

    /// The surface point of the refined net.
    pub fn point_of(self, refined: &[i32], size: Size) -> [i32; POINT_NUMBERS] {
        let fine = refinement::refined_size(size, self.k).expect("a size");
        refinement::point_of(refined, fine, self.place)
    }

    /// The exact spline of the starting net.
    pub fn exact(self, start: &Net) -> oracle::Point {
        let (p, q) = self.place;
        start.exact(p as i128, q as i128, EDGE << self.k)
    }
}

/// Place (p, q) of the coarser of the grids after k and after l steps, in the grid of each. All
/// pairs that are one place of the net are made so.
pub fn one_place([k, l]: [usize; 2], (p, q): Size) -> [RefinedPlace; 2] {
    let coarser = k.min(l);
    [k, l].map(|k| {
        let finer = k - coarser;
        let place = (p << finer, q << finer);
        RefinedPlace { k, place }
    })
}

/// Whether both are on their grids and one place of the starting net.
fn is_one_place(size: Size, [one, two]: [RefinedPlace; 2]) -> bool {
    one.on_grid(size) && two.on_grid(size) && one.in_edges() == two.in_edges()
}

/// `outs` are the lengths of the outputs for the refined nets.
pub fn seam_faults(net: &[i32], size: Size, seam: &Seam, outs: [usize; 2]) -> Faults {
    let (w, h) = size;
    let [one, two] = seam.places;
    let [scratch, scratch2] = seam.scratch_lens;
    let no_room = refinement::no_room(size, one.k, outs[0], scratch)
        || refinement::no_room(size, two.k, outs[1], scratch2);
    vec![
        (oracle::size_fault(w, h), 1),
        (
            refinement::too_fine(size, one.k) || refinement::too_fine(size, two.k),
            4,
        ),
        (!is_one_place(size, seam.places), 6),
        (oracle::short(net.len(), w, h), 2),
        (no_room || seam.points_len < SEAM_NUMBERS, 5),
        (oracle::net_fault(net, w, h), 3),
    ]
}

pub fn seam_points(net: &[i32], size: Size, seam: &Seam, outs: [usize; 2]) -> Result<Sides, u32> {
    oracle::accepted(&seam_faults(net, size, seam, outs))?;
    let nets = seam.places.map(|at| refinement::refined(net, size, at.k));
    let points = [0, 1].map(|side| seam.places[side].point_of(&nets[side], size));
    Ok(Sides { nets, points })
}
