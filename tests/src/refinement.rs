//! Refinement in exact rationals, written as the specification writes it. Each value is rounded
//! once in each step.

use crate::oracle::{self, ahead, behind, others, over, sum, times};
use crate::oracle::{Faults, Net, Point, Vertex, POINT_NUMBERS};
use crate::record::{self, Control, RECORD};

const MOST_STEPS: usize = 6;
const MOST_SIDE: usize = 1025;

/// The size after k steps; none where k is above 6 or a side is no `usize`.
pub fn refined_size(size: (usize, usize), k: usize) -> Option<(usize, usize)> {
    if k > MOST_STEPS {
        return None;
    }
    let side = |side: usize| side.checked_mul(2)?.checked_sub(1);
    (0..k).try_fold(size, |(w, h), _| Some((side(w)?, side(h)?)))
}

/// The count of numbers of the net after k steps.
pub fn refined_len(size: (usize, usize), k: usize) -> Option<usize> {
    let (w, h) = refined_size(size, k)?;
    w.checked_mul(h)?.checked_mul(RECORD)
}

/// The count of scratch numbers for k steps, which are free afterwards.
pub fn scratch_len(size: (usize, usize), k: usize) -> Option<usize> {
    match k {
        0 | 1 => Some(0),
        _ => refined_len(size, k - 1),
    }
}

/// The index after k: they run in a circle.
fn next(k: usize) -> usize {
    k % 3 + 1
}

fn even((i, j): Vertex) -> bool {
    i % 2 == 0 && j % 2 == 0
}

fn half((i, j): Vertex) -> Vertex {
    (i / 2, j / 2)
}

/// The control triangle of a kept vertex, not rounded.
fn kept(net: &Net, at: Vertex) -> [Point; 3] {
    let c = |k| net.control(half(at), k);
    [1, 2, 3].map(|k| {
        let [m, n] = others(k);
        over(sum(&[times(4, c(k)), c(m), c(n)]), 6)
    })
}

/// The control triangle of a new vertex, not rounded.
fn halving(net: &Net, at: Vertex) -> [Point; 3] {
    // It lies at A + B = 2A + ek of the finer grid.
    let found: Vec<usize> = (1..=3).filter(|&k| even(behind(at, k))).collect();
    assert_eq!(found.len(), 1, "one edge");
    let k = found[0];
    let from = half(behind(at, k));
    let to = ahead(from, k);
    let (a, b) = (|k| net.control(from, k), |k| net.control(to, k));
    let [one, two] = [next(k), next(next(k))];
    [1, 2, 3].map(|n| {
        if n == k {
            over(sum(&[b(one), b(two)]), 2)
        } else {
            over(sum(&[times(2, a(k)), a(n), b(n)]), 4)
        }
    })
}

/// The control triangles of the net after one step, row by row, not rounded.
pub fn exact_step<'a>(net: &'a Net<'a>) -> impl Iterator<Item = [Point; 3]> + 'a {
    let (w, h) = refined_size((net.w, net.h), 1).expect("a size");
    let vertices = (0..h as i128).flat_map(move |j| (0..w as i128).map(move |i| (i, j)));
    vertices.map(|at| match even(at) {
        true => kept(net, at),
        false => halving(net, at),
    })
}

/// The numbers of the net after one step.
pub(crate) fn one_step(net: &Net) -> Vec<i32> {
    let (w, h) = refined_size((net.w, net.h), 1).expect("a size");
    let mut numbers = Vec::with_capacity(record::numbers((w, h)));
    for triangle in exact_step(net) {
        let controls: [Control; 3] = triangle.map(oracle::rounded);
        numbers.extend(controls.as_flattened());
    }
    numbers
}

/// The numbers of the net after k steps.
pub fn refined(net: &[i32], size: (usize, usize), k: usize) -> Vec<i32> {
    let mut numbers = net[..record::numbers(size)].to_vec();
    for step in 0..k {
        let (w, h) = refined_size(size, step).expect("a size");
        numbers = one_step(&Net::new(&numbers, w, h));
    }
    numbers
}

pub(crate) fn too_fine(size: (usize, usize), k: usize) -> bool {
    refined_size(size, k).is_none_or(|(w, h)| w > MOST_SIDE || h > MOST_SIDE)
}

pub(crate) fn too_short(len: usize, needed: Option<usize>) -> bool {
    needed.is_none_or(|needed| len < needed)
}

/// Whether `out` or the scratch is too short.
pub(crate) fn no_room(size: (usize, usize), k: usize, out: usize, scratch: usize) -> bool {
    too_short(out, refined_len(size, k)) || too_short(scratch, scratch_len(size, k))
}

/// `out` and `scratch` are the lengths of the lent slices.
pub fn refine_faults(
    net: &[i32],
    (w, h): (usize, usize),
    k: usize,
    out: usize,
    scratch: usize,
) -> Faults {
    vec![
        (oracle::size_fault(w, h), 1),
        (too_fine((w, h), k), 4),
        (oracle::short(net.len(), w, h), 2),
        (no_room((w, h), k, out, scratch), 5),
        (oracle::net_fault(net, w, h), 3),
    ]
}

/// `out`, `scratch` and `point` are the lengths of the lent slices.
pub fn refined_point_faults(
    net: &[i32],
    (w, h): (usize, usize),
    k: usize,
    (p, q): (usize, usize),
    out: usize,
    scratch: usize,
    point: usize,
) -> Faults {
    let off_grid = |(w, h)| oracle::no_place(w, h, p, q);
    vec![
        (oracle::size_fault(w, h), 1),
        (too_fine((w, h), k), 4),
        (refined_size((w, h), k).is_none_or(off_grid), 6),
        (oracle::short(net.len(), w, h), 2),
        (no_room((w, h), k, out, scratch) || point < POINT_NUMBERS, 5),
        (oracle::net_fault(net, w, h), 3),
    ]
}

/// The surface point of the refined net at one of its places.
pub fn point_of(refined: &[i32], size: (usize, usize), place: (usize, usize)) -> [i32; 3] {
    oracle::surface_point(refined, size, place, POINT_NUMBERS).expect("a place of the net")
}
