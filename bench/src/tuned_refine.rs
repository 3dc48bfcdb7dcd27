//! Refinement in tuned Rust, to compare the library with: written out for each kind of vertex, as
//! in `plain_refine.rs`. What is tuned is taken from the library's own ways of rounding and
//! testing: sixths are quotients without a sign, of sums that are raised above zero; the numbers
//! of the net are tested several at once; and the rules are always merged into the loop over a
//! row, which also takes the difference or the sum where a net is split or merged.

use crate::plain::{Refusal, LIMIT};
use crate::plain_multiresolution::all_within;
use crate::plain_refine::{check_refine, plus_half, refined, to_and_fro, Size, Triangle};
use std::array;
use ups::{net_numbers, GREATEST_SIDE};

/// The sources of a row that is refined and nothing else.
const NONE: [(); GREATEST_SIDE] = [(); GREATEST_SIDE];

#[inline(never)]
pub fn refine(
    net: &[i32],
    size: Size,
    k: usize,
    out: &mut [i32],
    scratch: &mut [i32],
) -> Result<(), Refusal> {
    check_refine(net, size, k, (out.len(), scratch.len()))?;
    let net = &net[..net_numbers(size.0, size.1)];
    if !all_within(LIMIT, net) {
        return Err(3);
    }
    to_and_fro(net, size, k, (out, scratch), step);
    Ok(())
}

fn step(net: &[Triangle], size: Size, out: &mut [Triangle]) {
    let (wide, high) = refined(size, 1);
    for (y, target) in out.chunks_exact_mut(wide).take(high).enumerate() {
        row(net, size.0, y, &NONE[..wide], target, |(), refined| refined);
    }
}

/// Row y of the refinement of a net of width w. What is stored for a vertex is made from what
/// `sources` has for it and the refined vertex: a row that stands between would cost a pass. Even
/// rows hold kept vertices and those on edges along e1, odd rows those on edges along e3 and e2.
pub fn row<S>(
    net: &[Triangle],
    w: usize,
    y: usize,
    sources: &[S],
    out: &mut [Triangle],
    make: impl Fn(&S, Triangle) -> Triangle,
) {
    let (low, above) = net[y / 2 * w..].split_at(w);
    if y.is_multiple_of(2) {
        even_row(low, sources, out, make);
    } else {
        odd_row(low, &above[..w], sources, out, make);
    }
}

fn even_row<S>(
    row: &[Triangle],
    sources: &[S],
    out: &mut [Triangle],
    make: impl Fn(&S, Triangle) -> Triangle,
) {
    out[0] = make(&sources[0], kept(&row[0]));
    let targets = out[1..].chunks_exact_mut(2);
    let places = sources[1..].chunks_exact(2).zip(targets);
    for (pair, (sources, targets)) in row.windows(2).zip(places) {
        targets[0] = make(&sources[0], halving::<0>(&pair[0], &pair[1]));
        targets[1] = make(&sources[1], kept(&pair[1]));
    }
}

fn odd_row<S>(
    low: &[Triangle],
    high: &[Triangle],
    sources: &[S],
    out: &mut [Triangle],
    make: impl Fn(&S, Triangle) -> Triangle,
) {
    out[0] = make(&sources[0], halving::<2>(&high[0], &low[0]));
    let targets = out[1..].chunks_exact_mut(2);
    let places = sources[1..].chunks_exact(2).zip(targets);
    let pairs = low.windows(2).zip(high.windows(2));
    for ((low, high), (sources, targets)) in pairs.zip(places) {
        targets[0] = make(&sources[0], halving::<1>(&low[1], &high[0]));
        targets[1] = make(&sources[1], halving::<2>(&high[1], &low[1]));
    }
}

// Sums are at most 6 times 2^24 in size, so `i32` will do. The rules are always merged into the
// loops: through a call no numbers would be formed several at once.

/// The quotients are formed above zero: several at once take less so than with a sign.
#[inline(always)]
fn kept(c: &Triangle) -> Triangle {
    let sixfold = |k: usize, x: usize| 3 * c[k][x] + c[0][x] + c[1][x] + c[2][x];
    let raised = |k: usize, x: usize| plus_half(sixfold(k, x), 3) + 6 * LIMIT;
    array::from_fn(|k| array::from_fn(|x| (raised(k, x) as u32 / 6) as i32 - LIMIT))
}

/// The vertex that halves the edge from A to A + ek; k counts from 0.
#[inline(always)]
fn halving<const K: usize>(a: &Triangle, b: &Triangle) -> Triangle {
    let (l, m) = ((K + 1) % 3, (K + 2) % 3);
    let beside = |c: usize| array::from_fn(|x| plus_half(2 * a[K][x] + a[c][x] + b[c][x], 2) >> 2);
    let mut new = Triangle::default();
    new[K] = array::from_fn(|x| plus_half(b[l][x] + b[m][x], 1) >> 1);
    new[l] = beside(l);
    new[m] = beside(m);
    new
}
