//! Bézier nets and surface points in plain Rust, to compare the library with.
//!
//! Sums are formed in `i64`; the greatest is 36 times 2^24 times 2^20 in size.

use ups::{net_numbers, BEZIER, EDGE, POINT, RECORD};

pub const LIMIT: i32 = 16_777_216;
/// Numbers of a control point in a net: a vertex has three control points.
pub const POINT_RECORD: usize = RECORD / 3;

/// What is given instead of an answer: the number of the refusal.
pub type Refusal = u32;

/// A control point as a net stores it.
pub type Control = [i32; POINT_RECORD];

type Point = [i64; 3];

/// For each corner of an up and of a down triangle: k of its neighbour P + ek, m of its
/// neighbour P - em and the third index n, counted from 0. In both kinds P + ek is the next
/// corner.
pub const TURNS: [[[usize; 3]; 3]; 2] = [
    [[0, 2, 1], [1, 0, 2], [2, 1, 0]],
    [[1, 2, 0], [0, 1, 2], [2, 0, 1]],
];

pub fn check_size(w: usize, h: usize) -> Result<(), Refusal> {
    let sides = 2..=1025;
    if sides.contains(&w) && sides.contains(&h) {
        Ok(())
    } else {
        Err(1)
    }
}

pub fn check_lengths(
    net: &[i32],
    (w, h): (usize, usize),
    out_len: usize,
    needed: usize,
) -> Result<(), Refusal> {
    if net.len() < net_numbers(w, h) {
        Err(2)
    } else if out_len < needed {
        Err(5)
    } else {
        Ok(())
    }
}

pub fn in_range(x: &i32) -> bool {
    (-LIMIT..=LIMIT).contains(x)
}

/// The control points of a corner, named by their part in the triangle.
#[derive(Clone, Copy)]
struct Corner {
    k: Point,
    m: Point,
    n: Point,
}

impl Corner {
    /// 36 times s.
    fn s(&self) -> Point {
        point(|x| 12 * (self.k[x] + self.m[x] + self.n[x]))
    }

    /// 36 times u towards P + ek.
    fn u_ahead(&self) -> Point {
        point(|x| 6 * (4 * self.k[x] + self.m[x] + self.n[x]))
    }

    /// 36 times u towards P - em.
    fn u_behind(&self) -> Point {
        point(|x| 18 * (self.k[x] + self.n[x]))
    }

    /// 36 times v.
    fn v(&self) -> Point {
        point(|x| 12 * (2 * self.k[x] + self.n[x]))
    }
}

fn point(value: impl Fn(usize) -> i64) -> Point {
    [value(0), value(1), value(2)]
}

fn half_sum(a: Point, b: Point) -> Point {
    point(|x| (a[x] + b[x]) / 2)
}

/// Reads the control points of a triangle's corners and tests their range.
fn corners(net: &[i32], w: usize, i: usize, j: usize, down: usize) -> Result<[Corner; 3], Refusal> {
    let first = j * w + i;
    let vertices = match down {
        0 => [first, first + 1, first + w],
        _ => [first + 1, first + w, first + w + 1],
    };
    let numbers = vertices.map(|vertex| &net[RECORD * vertex..RECORD * vertex + RECORD]);
    if !numbers.iter().all(|part| part.iter().all(in_range)) {
        return Err(3);
    }
    Ok([0, 1, 2].map(|corner| {
        let part = numbers[corner];
        let [k, m, n] =
            TURNS[down][corner].map(|c| point(|x| i64::from(part[POINT_RECORD * c + x])));
        Corner { k, m, n }
    }))
}

// The library is reached through a call. Without `inline(never)` the plain functions would be
// merged into the measuring loop.
#[inline(never)]
pub fn bezier_net(
    net: &[i32],
    (w, h): (usize, usize),
    (i, j): (usize, usize),
    down: u32,
    out: &mut [i32],
) -> Result<(), Refusal> {
    check_size(w, h)?;
    if i > w - 2 || j > h - 2 || down > 1 {
        return Err(6);
    }
    check_lengths(net, (w, h), out.len(), BEZIER)?;
    let points = bezier_points(corners(net, w, i, j, down as usize)?);
    for (target, numbers) in out.chunks_exact_mut(3).zip(&points) {
        for (number, &x) in target.iter_mut().zip(numbers) {
            *number = x as i32;
        }
    }
    Ok(())
}

/// 36 times the points of a Bézier net. P + ek is the next corner, P - em the one before.
fn bezier_points([a, b, c]: [Corner; 3]) -> [Point; BEZIER / POINT] {
    let (ab, ba) = (a.u_ahead(), b.u_behind());
    let (bc, cb) = (b.u_ahead(), c.u_behind());
    let (ca, ac) = (c.u_ahead(), a.u_behind());
    let (va, vb, vc) = (a.v(), b.v(), c.v());
    let centre = point(|x| (va[x] + vb[x] + vc[x]) / 3);
    [
        a.s(),
        b.s(),
        c.s(),
        ab,
        ac,
        ba,
        bc,
        ca,
        cb,
        va,
        vb,
        vc,
        half_sum(ab, ba),
        half_sum(ac, ca),
        half_sum(bc, cb),
        half_sum(va, vb),
        half_sum(va, vc),
        half_sum(vb, vc),
        centre,
    ]
}

/// A surface point by de Casteljau's steps.
#[inline(never)]
pub fn surface_point_by_steps(
    net: &[i32],
    size: (usize, usize),
    place: (usize, usize),
    out: &mut [i32],
) -> Result<(), Refusal> {
    point_with(net, size, place, out, |number| number)
}

/// The viewer's point by the same steps.
#[inline(never)]
pub fn view_point(
    net: &[i32],
    size: (usize, usize),
    place: (usize, usize),
    out: &mut [f64],
) -> Result<(), Refusal> {
    point_with(net, size, place, out, |number| f64::from(number) / 1024.0)
}

/// The point, each of whose numbers is stored as what `stored` makes of it.
#[inline(always)]
fn point_with<T>(
    net: &[i32],
    (w, h): (usize, usize),
    (p, q): (usize, usize),
    out: &mut [T],
    stored: impl Fn(i32) -> T,
) -> Result<(), Refusal> {
    check_size(w, h)?;
    if p > EDGE * (w - 1) || q > EDGE * (h - 1) {
        return Err(6);
    }
    check_lengths(net, (w, h), out.len(), POINT)?;
    let (i, j) = ((p / EDGE).min(w - 2), (q / EDGE).min(h - 2));
    let (down, shares) = shares(p - EDGE * i, q - EDGE * j);
    let corners = corners(net, w, i, j, down)?;

    // From here on p, q, t are the corners P, Q, T.
    let (p, q, t) = descending(shares);
    let [a, b, d] = [p, q, t].map(|corner| shares[corner] as i64);
    let place = [a - b, 2 * (b - d), 3 * d];
    let (first, second) = (&corners[p], &corners[q]);
    let (u, u_back) = if q == (p + 1) % 3 {
        (first.u_ahead(), second.u_behind())
    } else {
        (first.u_behind(), second.u_ahead())
    };
    let s = first.s();
    let (v, v_second, v_third) = (first.v(), second.v(), corners[t].v());
    for x in 0..3 {
        let r = (u[x] + u_back[x]) / 2;
        let m = (v[x] + v_second[x]) / 2;
        let z = (v[x] + v_second[x] + v_third[x]) / 3;
        let sum = by_steps(place, [s[x], u[x], v[x], r, m, z]);
        out[x] = stored(rounded(sum, 36 * (EDGE * EDGE) as i64) as i32);
    }
    Ok(())
}

/// Whether the place within a cell is in its down triangle, as 0 or 1, and the corners' shares.
pub fn shares(f: usize, g: usize) -> (usize, [usize; 3]) {
    if f + g <= EDGE {
        (0, [EDGE - f - g, f, g])
    } else {
        (1, [EDGE - g, EDGE - f, f + g - EDGE])
    }
}

/// De Casteljau's averages: the point's value times 36 times 1,024 squared in one coordinate, from
/// the numbers A, B, G of the place and 36 times the Bézier points s, u, v, r, m, z.
pub fn by_steps([a, b, g]: [i64; 3], [s, u, v, r, m, z]: [i64; 6]) -> i64 {
    let average = |x, y, z| a * x + b * y + g * z;
    let (first, second, third) = (average(s, u, v), average(u, r, m), average(v, m, z));
    average(first, second, third)
}

/// The corners by falling share, equals in corner order.
fn descending(shares: [usize; 3]) -> (usize, usize, usize) {
    let [a, b, c] = shares;
    if a >= b {
        if b >= c {
            (0, 1, 2)
        } else if a >= c {
            (0, 2, 1)
        } else {
            (2, 0, 1)
        }
    } else if a >= c {
        (1, 0, 2)
    } else if b >= c {
        (1, 2, 0)
    } else {
        (2, 1, 0)
    }
}

/// The nearest whole number, halves away from zero (request d); the divisor is even.
pub fn rounded(dividend: i64, divisor: i64) -> i64 {
    let half = divisor / 2;
    let away = if dividend < 0 { -half } else { half };
    (dividend + away) / divisor
}
