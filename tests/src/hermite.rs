//! Nets through given points in exact rationals, written as the specification writes them: Hermite
//! interpolation, with a point and two derivatives at each vertex.

use crate::oracle::{self, ahead, scaled, sum, times, triangles_at};
use crate::oracle::{Faults, Net, Patch, Point, Triangle, Vertex, LIMIT};
use crate::rational::Rational;
use crate::record::GIVEN_RECORD;
use crate::refinement::{self, too_short};

type Size = (usize, usize);

/// The count of given numbers of a net of this size; none where it does not fit a `usize`.
pub fn given_len((w, h): Size) -> Option<usize> {
    w.checked_mul(h)?.checked_mul(GIVEN_RECORD)
}

/// The count of numbers of the net.
pub fn net_len(size: Size) -> Option<usize> {
    refinement::refined_len(size, 0)
}

/// p, t1 and t2 of a vertex, which has these given numbers.
fn given_of(vertex: &[i32]) -> [Point; 3] {
    let coordinates = GIVEN_RECORD / 3;
    [0, 1, 2].map(|n| oracle::point(&vertex[coordinates * n..coordinates * (n + 1)]))
}

/// The control triangle of a vertex with these given numbers.
fn controls(vertex: &[i32]) -> [Point; 3] {
    let [p, t1, t2] = given_of(vertex);
    [
        sum(&[p, t1]),
        sum(&[p, t2]),
        sum(&[p, times(-1, t1), times(-1, t2)]),
    ]
}

/// The control points of the net, of the vertices whose numbers are all lent.
fn control_points(given: &[i32], (w, h): Size) -> impl Iterator<Item = Point> + '_ {
    let vertices = given.chunks_exact(GIVEN_RECORD).take(w.saturating_mul(h));
    vertices.flat_map(controls)
}

fn beyond_net_range(x: Rational) -> bool {
    let limit = Rational::from(LIMIT);
    x < -limit || limit < x
}

/// `out` is the length of the lent output.
pub fn from_points_faults(given: &[i32], (w, h): Size, out: usize) -> Faults {
    let size = (w, h);
    let mut values = control_points(given, size).flatten();
    vec![
        (oracle::size_fault(w, h), 1),
        (too_short(given.len(), given_len(size)), 2),
        (too_short(out, net_len(size)), 5),
        (values.any(beyond_net_range), 16),
    ]
}

/// The numbers of the net through the given points.
pub fn from_points(given: &[i32], size: Size, out: usize) -> Result<Vec<i32>, u32> {
    oracle::accepted(&from_points_faults(given, size, out))?;
    let whole = |x: Rational| {
        assert_eq!(x.denominator(), 1, "a sum of whole numbers");
        i32::try_from(x.numerator()).expect("a control value fits 32 bits")
    };
    let points = control_points(given, size);
    Ok(points.flat_map(|point| point.map(whole)).collect())
}

/// A value and the first derivatives along e1 and e2, for one edge.
#[derive(Clone, Copy, Debug, PartialEq, Eq)]
pub struct Jet {
    pub value: Point,
    pub along: [Point; 2],
}

impl Jet {
    /// What the spline has to have at a vertex with these given numbers: p, twice t1, twice t2.
    pub fn given(vertex: &[i32]) -> Self {
        let [value, t1, t2] = given_of(vertex);
        let along = [times(2, t1), times(2, t2)];
        Jet { value, along }
    }
}

/// A quadratic piece of the exact spline at one of its vertices: a triangle of the net, and its
/// corners P, Q, T of which P is the vertex.
pub struct Piece {
    at: Vertex,
    triangle: Triangle,
    corners: [usize; 3],
    patch: Patch,
}

/// The pieces that meet a vertex: two in each triangle that has it as a corner.
pub fn pieces_at(net: &Net, at: Vertex) -> Vec<Piece> {
    let mut pieces = Vec::new();
    for triangle in triangles_at(net.w, net.h, at.0, at.1, 1) {
        let corner = triangle.corners().iter().position(|&other| other == at);
        let p = corner.expect("a corner of each triangle that holds it");
        for (q, t) in [(p + 1, p + 2), (p + 2, p + 1)] {
            let corners = [p, q % 3, t % 3];
            let patch = Patch::new(net, triangle);
            pieces.push(Piece {
                at,
                triangle,
                corners,
                patch,
            });
        }
    }
    pieces
}

impl Piece {
    /// The piece's quadratic at a place, which may lie outside the piece, at edge count `edge`.
    fn value(&self, (p, q): Vertex, edge: i128) -> Point {
        let shares = self.triangle.shares(p, q, edge);
        self.patch.quadratic(self.corners, shares, edge)
    }

    /// The value and the derivatives at the vertex, from the values d/D of an edge ahead of it and
    /// behind it; D is `edge`. Along a line the piece is f0 + f1·x + f2·x² with x = d/D, so that
    /// (f(x) - f(-x))/(2x) is f1, whatever x is.
    pub fn jet(&self, d: i128, edge: i128) -> Jet {
        let vertex = (edge * self.at.0, edge * self.at.1);
        let along = [1, 2].map(|k| {
            let step = ahead((0, 0), k);
            let step = (d * step.0, d * step.1);
            let ahead = self.value((vertex.0 + step.0, vertex.1 + step.1), edge);
            let behind = self.value((vertex.0 - step.0, vertex.1 - step.1), edge);
            let difference = sum(&[ahead, times(-1, behind)]);
            scaled(difference, Rational::new(edge, 2 * d))
        });
        Jet {
            value: self.value(vertex, edge),
            along,
        }
    }
}
