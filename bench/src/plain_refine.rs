//! Refinement in plain Rust, to compare the library with: once with the weight table, once
//! written out for each kind of vertex.

use crate::plain::{check_lengths, check_size, in_range, rounded, Control, Refusal};
use std::{array, mem};
use ups::{net_numbers, scratch_numbers};

pub type Size = (usize, usize);

pub type Triangle = [Control; 3];

/// The rule for a row of the refined net. It gets the net, its width, the row's number and where
/// the row is written.
pub type Row = fn(&[Triangle], usize, usize, &mut [Triangle]);

/// The weights over 12 of a1 a2 a3 b1 b2 b3 in each control point of a vertex: kept, and new on
/// an edge along e1, e2, e3. A kept vertex has no b.
const WEIGHTS: [[[i64; 6]; 3]; 4] = [
    [[8, 2, 2, 0, 0, 0], [2, 8, 2, 0, 0, 0], [2, 2, 8, 0, 0, 0]],
    [[0, 0, 0, 0, 6, 6], [6, 3, 0, 0, 3, 0], [6, 0, 3, 0, 0, 3]],
    [[3, 6, 0, 3, 0, 0], [0, 0, 0, 6, 0, 6], [0, 6, 3, 0, 0, 3]],
    [[3, 0, 6, 3, 0, 0], [0, 3, 6, 0, 3, 0], [0, 0, 0, 6, 6, 0]],
];

pub fn refined((w, h): Size, k: usize) -> Size {
    (((w - 1) << k) + 1, ((h - 1) << k) + 1)
}

#[inline(never)]
pub fn refine(
    net: &[i32],
    size: Size,
    k: usize,
    out: &mut [i32],
    scratch: &mut [i32],
    row: Row,
) -> Result<(), Refusal> {
    check_refine(net, size, k, (out.len(), scratch.len()))?;
    let net = &net[..net_numbers(size.0, size.1)];
    if !net.iter().all(in_range) {
        return Err(3);
    }
    to_and_fro(net, size, k, (out, scratch), |net, size, out| {
        step(net, size, out, row);
    });
    Ok(())
}

/// The faults of sizes, the depth and the lengths of what is lent.
pub fn check_refine(
    net: &[i32],
    size: Size,
    k: usize,
    (out_len, scratch_len): (usize, usize),
) -> Result<(), Refusal> {
    check_size(size.0, size.1)?;
    if k > 6 {
        return Err(4);
    }
    let (w, h) = refined(size, k);
    check_size(w, h).map_err(|_| 4_u32)?;
    check_lengths(net, size, out_len, net_numbers(w, h))?;
    if scratch_len < scratch_numbers(size.0, size.1, k) {
        return Err(5);
    }
    Ok(())
}

/// Refines by k steps, each of which gets a net, its size and where the refined one is written.
#[inline(always)]
pub fn to_and_fro(
    net: &[i32],
    size: Size,
    k: usize,
    (out, scratch): (&mut [i32], &mut [i32]),
    step: impl Fn(&[Triangle], Size, &mut [Triangle]),
) {
    if k == 0 {
        out[..net.len()].copy_from_slice(net);
        return;
    }
    let (out, scratch) = (triangles_mut(out), triangles_mut(scratch));
    // To and fro, so that the last step writes the output.
    let (mut to, mut from) = if k % 2 == 1 {
        (out, scratch)
    } else {
        (scratch, out)
    };
    step(triangles(net), size, to);
    for done in 1..k {
        mem::swap(&mut to, &mut from);
        step(from, refined(size, done), to);
    }
}

/// The numbers by vertex and control point, of a net or of details.
pub fn triangles<const N: usize>(numbers: &[i32]) -> &[[[i32; N]; 3]] {
    numbers.as_chunks().0.as_chunks().0
}

pub fn triangles_mut<const N: usize>(numbers: &mut [i32]) -> &mut [[[i32; N]; 3]] {
    numbers.as_chunks_mut().0.as_chunks_mut().0
}

fn step(net: &[Triangle], size: Size, out: &mut [Triangle], row: Row) {
    let (wide, high) = refined(size, 1);
    for (y, target) in out.chunks_exact_mut(wide).take(high).enumerate() {
        row(net, size.0, y, target);
    }
}

pub fn table_row(net: &[Triangle], w: usize, y: usize, out: &mut [Triangle]) {
    for (x, target) in out.iter_mut().enumerate() {
        let vertex = y / 2 * w + x / 2;
        let (kind, a, b) = match (x % 2, y % 2) {
            (0, 0) => (0, vertex, vertex),
            (1, 0) => (1, vertex, vertex + 1),
            (1, _) => (2, vertex + 1, vertex + w),
            _ => (3, vertex + w, vertex),
        };
        *target = weighted(&WEIGHTS[kind], &net[a], &net[b]);
    }
}

fn weighted(weights: &[[i64; 6]; 3], a: &Triangle, b: &Triangle) -> Triangle {
    let points = [a[0], a[1], a[2], b[0], b[1], b[2]];
    array::from_fn(|c| {
        array::from_fn(|x| {
            let terms = weights[c].iter().zip(&points);
            let sum = terms.map(|(weight, point)| weight * i64::from(point[x]));
            rounded(sum.sum(), 12) as i32
        })
    })
}

/// Even rows hold kept vertices and those on edges along e1, odd rows those on edges along e3
/// and e2.
pub fn kind_row(net: &[Triangle], w: usize, y: usize, out: &mut [Triangle]) {
    let (low, above) = net[y / 2 * w..].split_at(w);
    if y.is_multiple_of(2) {
        even_row(low, out);
    } else {
        odd_row(low, &above[..w], out);
    }
}

fn even_row(row: &[Triangle], out: &mut [Triangle]) {
    out[0] = kept(&row[0]);
    for (pair, targets) in row.windows(2).zip(out[1..].chunks_exact_mut(2)) {
        targets[0] = halving::<0>(&pair[0], &pair[1]);
        targets[1] = kept(&pair[1]);
    }
}

fn odd_row(low: &[Triangle], high: &[Triangle], out: &mut [Triangle]) {
    out[0] = halving::<2>(&high[0], &low[0]);
    let pairs = low.windows(2).zip(high.windows(2));
    for ((low, high), targets) in pairs.zip(out[1..].chunks_exact_mut(2)) {
        targets[0] = halving::<1>(&low[1], &high[0]);
        targets[1] = halving::<2>(&high[1], &low[1]);
    }
}

// Sums are at most 6 times 2^24 in size, so `i32` will do.

/// A sum plus half of its divisor, and one less where the sum is below zero: rounded down, the
/// quotient is the nearest, halves away from zero. Without a branch the compiler forms several at
/// once.
pub fn plus_half(sum: i32, half: i32) -> i32 {
    let below_zero = sum >> (i32::BITS - 1);
    sum + half + below_zero
}

fn kept(c: &Triangle) -> Triangle {
    let sixfold = |k: usize, x: usize| 3 * c[k][x] + c[0][x] + c[1][x] + c[2][x];
    array::from_fn(|k| array::from_fn(|x| plus_half(sixfold(k, x), 3).div_euclid(6)))
}

/// The vertex that halves the edge from A to A + ek; k counts from 0.
fn halving<const K: usize>(a: &Triangle, b: &Triangle) -> Triangle {
    let (l, m) = ((K + 1) % 3, (K + 2) % 3);
    let beside = |c: usize| array::from_fn(|x| plus_half(2 * a[K][x] + a[c][x] + b[c][x], 2) >> 2);
    let mut new = Triangle::default();
    new[K] = array::from_fn(|x| plus_half(b[l][x] + b[m][x], 1) >> 1);
    new[l] = beside(l);
    new[m] = beside(m);
    new
}
