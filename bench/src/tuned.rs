//! Bézier nets and surface points in tuned Rust, to compare the library with. What is tuned is
//! taken from the library's own ways of rounding and testing:
//! - The numbers of a triangle are tested without an early end, several at once.
//! - 36 times a Bézier point is at most 36 times 2^24 in size, so `i32` will do: only the steps
//!   are taken in `i64`. Such points are formed by coordinate, with no division.
//! - The corners are put in order by a list and not by branches.
//! - A quotient is formed without a sign, from a sum that is raised above zero.

use crate::plain::{by_steps, check_lengths, check_size, shares, Refusal, LIMIT, TURNS};
use crate::plain_multiresolution::all_within;
use crate::plain_refine::{triangles, Triangle};
use std::array;
use ups::{BEZIER, EDGE, POINT};

/// Two sides, or a cell, or a place.
type Pair = (usize, usize);

/// The corners by falling share, equals in corner order. The place in the list is 1 where the
/// first share is at least the second, and 2 more where the second is at least the third, and 4
/// more where the first is. A list, since at random places branches would be guessed wrong.
const ORDERS: [[usize; 3]; 8] = [
    [2, 1, 0],
    [2, 0, 1],
    [1, 2, 0],
    // No shares have the next two.
    [0, 1, 2],
    [2, 1, 0],
    [0, 2, 1],
    [1, 0, 2],
    [0, 1, 2],
];

/// One coordinate of a corner's control points, named by their part in the triangle.
#[derive(Clone, Copy)]
struct Corner {
    k: i32,
    m: i32,
    n: i32,
}

impl Corner {
    #[inline(always)]
    fn new(vertex: &Triangle, turn: [usize; 3], x: usize) -> Corner {
        let [k, m, n] = turn;
        Corner {
            k: vertex[k][x],
            m: vertex[m][x],
            n: vertex[n][x],
        }
    }

    /// 36 times s.
    fn s(self) -> i32 {
        12 * (self.k + self.m + self.n)
    }

    /// 18 times u towards P + ek.
    fn u_ahead(self) -> i32 {
        3 * (4 * self.k + self.m + self.n)
    }

    /// 18 times u towards P - em.
    fn u_behind(self) -> i32 {
        9 * (self.k + self.n)
    }

    /// 3 times v.
    fn v(self) -> i32 {
        2 * self.k + self.n
    }
}

/// The vertices of a triangle, which are tested for their range. Merged into each caller, so that
/// there is no call.
#[inline(always)]
fn vertices(net: &[i32], w: usize, (i, j): Pair, down: usize) -> Result<[&Triangle; 3], Refusal> {
    let net: &[Triangle] = triangles(net);
    let first = j * w + i;
    let second = first + 1 + down * (w - 1);
    let [a, b, c] = [&net[first + down], &net[second], &net[first + w + down]];
    let fits = |vertex: &Triangle| all_within(LIMIT, vertex.as_flattened());
    if fits(a) & fits(b) & fits(c) {
        Ok([a, b, c])
    } else {
        Err(3)
    }
}

#[inline(never)]
pub fn bezier_net(
    net: &[i32],
    (w, h): Pair,
    (i, j): Pair,
    down: u32,
    out: &mut [i32],
) -> Result<(), Refusal> {
    check_size(w, h)?;
    if i > w - 2 || j > h - 2 || down > 1 {
        return Err(6);
    }
    check_lengths(net, (w, h), out.len(), BEZIER)?;
    let vertices = vertices(net, w, (i, j), down as usize)?;
    let turns = TURNS[down as usize];
    let out: &mut [i32; BEZIER] = out.first_chunk_mut().ok_or(5_u32)?;
    for x in 0..POINT {
        let corners = array::from_fn(|n| Corner::new(vertices[n], turns[n], x));
        for (n, number) in bezier_numbers(corners).into_iter().enumerate() {
            out[POINT * n + x] = number;
        }
    }
    Ok(())
}

/// One coordinate of the points of a Bézier net. P + ek is the next corner, P - em the one before.
fn bezier_numbers([a, b, c]: [Corner; 3]) -> [i32; BEZIER / POINT] {
    let (ab, ba) = (a.u_ahead(), b.u_behind());
    let (bc, cb) = (b.u_ahead(), c.u_behind());
    let (ca, ac) = (c.u_ahead(), a.u_behind());
    let (va, vb, vc) = (a.v(), b.v(), c.v());
    [
        a.s(),
        b.s(),
        c.s(),
        2 * ab,
        2 * ac,
        2 * ba,
        2 * bc,
        2 * ca,
        2 * cb,
        12 * va,
        12 * vb,
        12 * vc,
        ab + ba,
        ac + ca,
        bc + cb,
        6 * (va + vb),
        6 * (va + vc),
        6 * (vb + vc),
        4 * (va + vb + vc),
    ]
}

/// A surface point by de Casteljau's steps.
#[inline(never)]
pub fn surface_point(net: &[i32], size: Pair, place: Pair, out: &mut [i32]) -> Result<(), Refusal> {
    let point = point(net, size, place, out.len())?;
    out[..POINT].copy_from_slice(&point);
    Ok(())
}

/// The viewer's point by the same steps.
#[inline(never)]
pub fn view_point(net: &[i32], size: Pair, place: Pair, out: &mut [f64]) -> Result<(), Refusal> {
    let point = point(net, size, place, out.len())?;
    out[..POINT].copy_from_slice(&point.map(|x| f64::from(x) / 1024.0));
    Ok(())
}

/// The point's numbers.
#[inline(always)]
fn point(net: &[i32], (w, h): Pair, (p, q): Pair, out_len: usize) -> Result<[i32; POINT], Refusal> {
    check_size(w, h)?;
    if p > EDGE * (w - 1) || q > EDGE * (h - 1) {
        return Err(6);
    }
    check_lengths(net, (w, h), out_len, POINT)?;
    let (i, j) = ((p / EDGE).min(w - 2), (q / EDGE).min(h - 2));
    let (down, shares) = shares(p - EDGE * i, q - EDGE * j);
    let vertices = vertices(net, w, (i, j), down)?;
    let [p, q, t] = order(shares);
    let [a, b, d] = [shares[p] as i64, shares[q] as i64, shares[t] as i64];
    let place = [a - b, 2 * (b - d), 3 * d];
    let turns = TURNS[down];
    let ahead = q == [1, 2, 0][p];
    let mut point = [0; POINT];
    for (x, number) in point.iter_mut().enumerate() {
        let corner = |c: usize| Corner::new(vertices[c], turns[c], x);
        let [s, u, v, r, m, z] = six([corner(p), corner(q), corner(t)], ahead);
        let bezier = [s.into(), u.into(), v.into(), r.into(), m.into(), z.into()];
        *number = nearest(by_steps(place, bezier));
    }
    Ok(point)
}

fn order([a, b, c]: [usize; 3]) -> [usize; 3] {
    ORDERS[usize::from(a >= b) + 2 * usize::from(b >= c) + 4 * usize::from(a >= c)]
}

/// 36 times one coordinate of s, u, v, r, m, z, from the corners P, Q, T. Q is `ahead` where it is
/// the corner after P.
#[inline(always)]
fn six([p, q, t]: [Corner; 3], ahead: bool) -> [i32; 6] {
    let u = if ahead { p.u_ahead() } else { p.u_behind() };
    let u_back = if ahead { q.u_behind() } else { q.u_ahead() };
    let (v, m, z) = (p.v(), p.v() + q.v(), p.v() + q.v() + t.v());
    [p.s(), 2 * u, 12 * v, u + u_back, 6 * m, 4 * z]
}

/// The nearest whole number to a point's value, halves away from zero (request d). The sum is
/// raised above zero, where a quotient takes less; one below zero is one less, so that its halves
/// go down.
fn nearest(sum: i64) -> i32 {
    const DIVISOR: i64 = 36 * (EDGE * EDGE) as i64;
    const RAISE: i64 = DIVISOR * LIMIT as i64 + DIVISOR / 2;
    let below_zero = sum >> (i64::BITS - 1);
    ((sum + below_zero + RAISE) as u64 / DIVISOR as u64) as i32 - LIMIT
}
