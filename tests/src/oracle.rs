//! The definitions in exact rationals, written as the specification writes them: indices
//! k, m, n run from 1 to 3, corners of a triangle from 0 to 2.

use crate::rational::Rational;
use crate::record::{POINT_RECORD, RECORD};

pub const EDGE: i128 = 1024;
pub const LIMIT: i32 = 16_777_216;
pub const BEZIER_NUMBERS: usize = 57;
pub const POINT_NUMBERS: usize = 3;

pub type Vertex = (i128, i128);
pub type Point = [Rational; 3];

/// The steps e1, e2, e3.
const STEPS: [Vertex; 3] = [(1, 0), (-1, 1), (0, -1)];

fn step(k: usize) -> Vertex {
    STEPS[k - 1]
}

pub(crate) fn ahead(at: Vertex, k: usize) -> Vertex {
    (at.0 + step(k).0, at.1 + step(k).1)
}

pub(crate) fn behind(at: Vertex, m: usize) -> Vertex {
    (at.0 - step(m).0, at.1 - step(m).1)
}

/// The two indices other than k.
pub(crate) fn others(k: usize) -> [usize; 2] {
    match k {
        1 => [2, 3],
        2 => [1, 3],
        3 => [1, 2],
        _ => panic!("index {k}"),
    }
}

pub(crate) fn sum(points: &[Point]) -> Point {
    let mut total = [Rational::ZERO; 3];
    for point in points {
        for (t, &x) in total.iter_mut().zip(point) {
            *t = *t + x;
        }
    }
    total
}

pub(crate) fn scaled(point: Point, factor: Rational) -> Point {
    point.map(|x| x * factor)
}

pub(crate) fn times(factor: i128, point: Point) -> Point {
    scaled(point, Rational::whole(factor))
}

pub(crate) fn over(point: Point, divisor: i128) -> Point {
    point.map(|x| x / Rational::whole(divisor))
}

#[derive(Clone, Copy, Debug, PartialEq, Eq)]
pub enum Kind {
    Up,
    Down,
}

/// A triangle of cell (i, j).
#[derive(Clone, Copy, Debug, PartialEq, Eq)]
pub struct Triangle {
    pub kind: Kind,
    pub i: i128,
    pub j: i128,
}

impl Triangle {
    pub fn new(kind: Kind, i: usize, j: usize) -> Self {
        let (i, j) = (i as i128, j as i128);
        Triangle { kind, i, j }
    }

    pub fn corners(&self) -> [Vertex; 3] {
        let (i, j) = (self.i, self.j);
        match self.kind {
            Kind::Up => [(i, j), (i + 1, j), (i, j + 1)],
            Kind::Down => [(i + 1, j), (i, j + 1), (i + 1, j + 1)],
        }
    }

    /// The shares of a place at the three corners; their sum is the edge count.
    pub fn shares(&self, p: i128, q: i128, edge: i128) -> [i128; 3] {
        let (f, g) = (p - edge * self.i, q - edge * self.j);
        match self.kind {
            Kind::Up => [edge - f - g, f, g],
            Kind::Down => [edge - g, edge - f, f + g - edge],
        }
    }

    pub fn holds(&self, p: i128, q: i128, edge: i128) -> bool {
        let (f, g) = (p - edge * self.i, q - edge * self.j);
        match self.kind {
            Kind::Up => f >= 0 && g >= 0 && f + g <= edge,
            Kind::Down => f <= edge && g <= edge && f + g >= edge,
        }
    }
}

/// The triangle a surface point at place (p, q) is taken from.
pub fn chosen_triangle(w: usize, h: usize, p: i128, q: i128, edge: i128) -> Triangle {
    let i = (p / edge).min(w as i128 - 2);
    let j = (q / edge).min(h as i128 - 2);
    let (f, g) = (p - edge * i, q - edge * j);
    let kind = if f + g <= edge { Kind::Up } else { Kind::Down };
    Triangle { kind, i, j }
}

/// All triangles of the net that hold place (p, q).
pub fn triangles_at(w: usize, h: usize, p: i128, q: i128, edge: i128) -> Vec<Triangle> {
    let mut found = Vec::new();
    for j in 0..h as i128 - 1 {
        for i in 0..w as i128 - 1 {
            for kind in [Kind::Up, Kind::Down] {
                let triangle = Triangle { kind, i, j };
                if triangle.holds(p, q, edge) {
                    found.push(triangle);
                }
            }
        }
    }
    found
}

/// A lent net of an accepted size.
#[derive(Clone, Copy)]
pub struct Net<'a> {
    pub numbers: &'a [i32],
    pub w: usize,
    pub h: usize,
}

impl<'a> Net<'a> {
    pub fn new(numbers: &'a [i32], w: usize, h: usize) -> Self {
        assert!(!size_fault(w, h) && !short(numbers.len(), w, h));
        Net { numbers, w, h }
    }

    /// The numbers of a vertex.
    pub fn vertex(&self, at: Vertex) -> &'a [i32] {
        let start = vertex_start(self.w, at);
        &self.numbers[start..start + RECORD]
    }

    pub(crate) fn control(&self, at: Vertex, k: usize) -> Point {
        control(self.vertex(at), k)
    }

    /// The exact spline at a place, taken from the given triangle.
    pub fn exact_in(&self, triangle: Triangle, p: i128, q: i128, edge: i128) -> Point {
        Patch::new(self, triangle).exact(triangle.shares(p, q, edge), edge)
    }

    /// The exact spline at a place, taken from the chosen triangle.
    pub fn exact(&self, p: i128, q: i128, edge: i128) -> Point {
        self.exact_in(chosen_triangle(self.w, self.h, p, q, edge), p, q, edge)
    }

    /// The least and the greatest of the nine control values in one coordinate.
    pub fn control_range(&self, triangle: Triangle, coordinate: usize) -> (i32, i32) {
        let values = triangle.corners().map(|at| {
            let numbers = self.vertex(at);
            [1, 2, 3].map(|k| numbers[POINT_RECORD * (k - 1) + coordinate])
        });
        let all = values.as_flattened();
        (
            *all.iter().min().expect("nine values"),
            *all.iter().max().expect("nine values"),
        )
    }
}

/// A control point of a vertex, which has these numbers.
pub(crate) fn control(vertex: &[i32], k: usize) -> Point {
    point(&vertex[POINT_RECORD * (k - 1)..POINT_RECORD * k])
}

/// The point of which these numbers are x, y, z.
pub(crate) fn point(numbers: &[i32]) -> Point {
    [numbers[0].into(), numbers[1].into(), numbers[2].into()]
}

fn vertex_start(w: usize, at: Vertex) -> usize {
    let vertex = at.1 * w as i128 + at.0;
    usize::try_from(RECORD as i128 * vertex).expect("position in the net")
}

/// A corner P of a triangle with its neighbours P + ek and P - em; n is the third index.
#[derive(Clone, Copy)]
struct Corner {
    at: Vertex,
    k: usize,
    m: usize,
    n: usize,
    controls: [Point; 3],
}

impl Corner {
    fn new(net: &Net, at: Vertex, corners: [Vertex; 3]) -> Self {
        let only = |fits: &dyn Fn(usize) -> bool| {
            let found: Vec<usize> = (1..=3).filter(|&k| fits(k)).collect();
            assert_eq!(found.len(), 1, "one neighbour each way");
            found[0]
        };
        let k = only(&|k| corners.contains(&ahead(at, k)));
        let m = only(&|m| corners.contains(&behind(at, m)));
        let n = only(&|n| n != k && n != m);
        Corner {
            at,
            k,
            m,
            n,
            controls: [1, 2, 3].map(|k| net.control(at, k)),
        }
    }

    fn c(&self, k: usize) -> Point {
        self.controls[k - 1]
    }

    fn s(&self) -> Point {
        over(sum(&self.controls), 3)
    }

    fn u(&self, towards: Vertex) -> Point {
        if towards == ahead(self.at, self.k) {
            let [a, b] = others(self.k);
            over(sum(&[times(4, self.c(self.k)), self.c(a), self.c(b)]), 6)
        } else {
            assert_eq!(towards, behind(self.at, self.m));
            let [a, b] = others(self.m);
            over(sum(&[self.c(a), self.c(b)]), 2)
        }
    }

    fn v(&self) -> Point {
        over(sum(&[times(2, self.c(self.k)), self.c(self.n)]), 3)
    }
}

/// The corners P, Q, T in the order of their shares.
pub fn order(shares: [i128; 3]) -> [usize; 3] {
    // The sort is stable, so equal shares stay in corner order.
    let mut order = [0, 1, 2];
    order.sort_by(|&x, &y| shares[y].cmp(&shares[x]));
    order
}

/// A, B and G.
pub(crate) fn gaps(shares: [i128; 3]) -> [i128; 3] {
    gaps_of(order(shares), shares)
}

/// A, B and G where P, Q, T are these corners.
fn gaps_of(corners: [usize; 3], shares: [i128; 3]) -> [i128; 3] {
    let [a, b, d] = corners.map(|corner| shares[corner]);
    [a - b, 2 * (b - d), 3 * d]
}

/// The Bézier ordinates of one triangle.
pub struct Patch {
    corners: [Corner; 3],
}

impl Patch {
    pub fn new(net: &Net, triangle: Triangle) -> Self {
        let corners = triangle.corners();
        Patch {
            corners: corners.map(|at| Corner::new(net, at, corners)),
        }
    }

    pub(crate) fn s(&self, a: usize) -> Point {
        self.corners[a].s()
    }

    pub(crate) fn u(&self, a: usize, b: usize) -> Point {
        self.corners[a].u(self.corners[b].at)
    }

    pub(crate) fn v(&self, a: usize) -> Point {
        self.corners[a].v()
    }

    pub(crate) fn r(&self, a: usize, b: usize) -> Point {
        over(sum(&[self.u(a, b), self.u(b, a)]), 2)
    }

    pub(crate) fn m(&self, a: usize, b: usize) -> Point {
        over(sum(&[self.v(a), self.v(b)]), 2)
    }

    pub(crate) fn z(&self) -> Point {
        over(sum(&[self.v(0), self.v(1), self.v(2)]), 3)
    }

    /// The 19 points in the order of the lent output.
    pub fn points(&self) -> [Point; 19] {
        [
            self.s(0),
            self.s(1),
            self.s(2),
            self.u(0, 1),
            self.u(0, 2),
            self.u(1, 0),
            self.u(1, 2),
            self.u(2, 0),
            self.u(2, 1),
            self.v(0),
            self.v(1),
            self.v(2),
            self.r(0, 1),
            self.r(0, 2),
            self.r(1, 2),
            self.m(0, 1),
            self.m(0, 2),
            self.m(1, 2),
            self.z(),
        ]
    }

    /// The exact value for the given shares at edge count `edge`.
    pub fn exact(&self, shares: [i128; 3], edge: i128) -> Point {
        self.quadratic(order(shares), shares, edge)
    }

    /// The quadratic of the piece whose corners P, Q, T are these, for any shares: outside the
    /// piece they are in another order, and outside the triangle some are below 0.
    pub fn quadratic(&self, corners: [usize; 3], shares: [i128; 3], edge: i128) -> Point {
        assert_eq!(shares.iter().sum::<i128>(), edge);
        let [p, q, _] = corners;
        let [a, b, g] = gaps_of(corners, shares);
        let total = sum(&[
            times(a * a, self.s(p)),
            times(2 * a * b, self.u(p, q)),
            times(2 * a * g, self.v(p)),
            times(b * b, self.r(p, q)),
            times(2 * b * g, self.m(p, q)),
            times(g * g, self.z()),
        ]);
        over(total, edge * edge)
    }
}

/// Each coordinate rounded once: the surface point for an exact value, a control point for its
/// refined or coarse value.
pub fn rounded(exact: Point) -> [i32; 3] {
    exact.map(|x| i32::try_from(x.rounded()).expect("a rounded point fits 32 bits"))
}

/// The viewer's point for a surface point, as bits, since doubles are compared bit for bit.
pub fn view_bits(point: [i32; 3]) -> [u64; 3] {
    point.map(|x| (f64::from(x) / 1024.0).to_bits())
}

/// Conditions with their refusal numbers, in the order of the specification.
pub type Faults = Vec<(bool, u32)>;

/// The number of the first condition that holds, 0 when none does.
pub fn refusal(faults: &Faults) -> u32 {
    let first = faults.iter().find(|(holds, _)| *holds);
    first.map_or(0, |&(_, number)| number)
}

pub fn size_fault(w: usize, h: usize) -> bool {
    !(2..=1025).contains(&w) || !(2..=1025).contains(&h)
}

/// Whether a net of `len` numbers is too short for its size.
pub fn short(len: usize, w: usize, h: usize) -> bool {
    let needed = (w as u128)
        .checked_mul(h as u128)
        .and_then(|n| n.checked_mul(RECORD as u128));
    needed.is_none_or(|needed| (len as u128) < needed)
}

fn no_vertex(w: usize, h: usize, i: usize, j: usize) -> bool {
    i >= w || j >= h
}

fn no_cell(w: usize, h: usize, i: usize, j: usize) -> bool {
    i as i128 > w as i128 - 2 || j as i128 > h as i128 - 2
}

pub(crate) fn no_place(w: usize, h: usize, p: usize, q: usize) -> bool {
    p as i128 > EDGE * (w as i128 - 1) || q as i128 > EDGE * (h as i128 - 1)
}

fn beyond_range(x: &i32) -> bool {
    !(-LIMIT..=LIMIT).contains(x)
}

/// Whether one of the net's numbers, as far as they are lent, is beyond its range.
pub(crate) fn net_fault(net: &[i32], w: usize, h: usize) -> bool {
    let count = w.saturating_mul(h).saturating_mul(RECORD);
    net.iter().take(count).any(beyond_range)
}

/// Whether one of the triangle's numbers, as far as they are lent, is beyond its range.
fn number_fault(net: &[i32], w: usize, triangle: Option<Triangle>) -> bool {
    let Some(triangle) = triangle else {
        return false;
    };
    triangle.corners().iter().any(|&(i, j)| {
        let row = j.checked_mul(w as i128).and_then(|r| r.checked_add(i));
        let start = row.and_then(|v| v.checked_mul(RECORD as i128));
        let Some(start) = start.and_then(|s| usize::try_from(s).ok()) else {
            return false;
        };
        let mut lent = net.iter().skip(start).take(RECORD);
        lent.any(beyond_range)
    })
}

fn named_triangle(w: usize, h: usize, i: usize, j: usize, down: u32) -> Option<Triangle> {
    let kind = match down {
        0 => Kind::Up,
        1 => Kind::Down,
        _ => return None,
    };
    (!no_cell(w, h, i, j)).then_some(Triangle::new(kind, i, j))
}

fn place_triangle(w: usize, h: usize, p: usize, q: usize) -> Option<Triangle> {
    let cells = w >= 2 && h >= 2 && !no_place(w, h, p, q);
    cells.then(|| chosen_triangle(w, h, p as i128, q as i128, EDGE))
}

pub fn vertex_faults(net: &[i32], w: usize, h: usize, i: usize, j: usize) -> Faults {
    vec![
        (size_fault(w, h), 1),
        (no_vertex(w, h, i, j), 6),
        (short(net.len(), w, h), 2),
    ]
}

pub fn bezier_faults(
    net: &[i32],
    (w, h): (usize, usize),
    (i, j): (usize, usize),
    down: u32,
    out_len: usize,
) -> Faults {
    let triangle = named_triangle(w, h, i, j, down);
    vec![
        (size_fault(w, h), 1),
        (triangle.is_none(), 6),
        (short(net.len(), w, h), 2),
        (out_len < BEZIER_NUMBERS, 5),
        (number_fault(net, w, triangle), 3),
    ]
}

/// For the surface point and the viewer's point.
pub fn point_faults(
    net: &[i32],
    (w, h): (usize, usize),
    (p, q): (usize, usize),
    out_len: usize,
) -> Faults {
    vec![
        (size_fault(w, h), 1),
        (no_place(w, h, p, q), 6),
        (short(net.len(), w, h), 2),
        (out_len < POINT_NUMBERS, 5),
        (number_fault(net, w, place_triangle(w, h, p, q)), 3),
    ]
}

/// The 57 numbers of an accepted Bézier net.
pub fn bezier_numbers(net: &Net, triangle: Triangle) -> [i32; BEZIER_NUMBERS] {
    let points = Patch::new(net, triangle).points();
    let mut numbers = [0; BEZIER_NUMBERS];
    for (number, x) in numbers.iter_mut().zip(points.as_flattened()) {
        let x = *x * Rational::whole(36);
        assert_eq!(x.denominator(), 1, "36 times a Bézier ordinate is whole");
        *number = i32::try_from(x.numerator()).expect("a Bézier number fits 32 bits");
    }
    numbers
}

pub fn accepted(faults: &Faults) -> Result<(), u32> {
    match refusal(faults) {
        0 => Ok(()),
        number => Err(number),
    }
}

pub fn bezier_net(
    net: &[i32],
    (w, h): (usize, usize),
    (i, j): (usize, usize),
    down: u32,
    out_len: usize,
) -> Result<[i32; BEZIER_NUMBERS], u32> {
    accepted(&bezier_faults(net, (w, h), (i, j), down, out_len))?;
    let triangle = named_triangle(w, h, i, j, down).expect("an accepted triangle");
    Ok(bezier_numbers(&Net::new(net, w, h), triangle))
}

pub fn surface_point(
    net: &[i32],
    (w, h): (usize, usize),
    (p, q): (usize, usize),
    out_len: usize,
) -> Result<[i32; POINT_NUMBERS], u32> {
    accepted(&point_faults(net, (w, h), (p, q), out_len))?;
    let exact = Net::new(net, w, h).exact(p as i128, q as i128, EDGE);
    Ok(rounded(exact))
}
