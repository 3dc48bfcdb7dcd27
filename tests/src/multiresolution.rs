//! Split, merge and clean in exact rationals, written as the specification writes them.
//!
//! A net is split into every second vertex of it, the coarse net, and the details that one
//! refinement of the coarse net lacks.

use crate::oracle::{self, others, over, sum, times, Faults, Net, Point, LIMIT};
use crate::record::{self, Control, DETAIL_RECORD, POINT_RECORD, RECORD};
use crate::refinement::{self, too_short};

pub const DETAIL_LIMIT: i32 = 33_554_432;

type Size = (usize, usize);

/// What split writes.
#[derive(Clone, Debug, PartialEq, Eq)]
pub struct Split {
    pub coarse: Vec<i32>,
    pub details: Vec<i32>,
}

/// The size of the coarse net.
pub fn coarse_size((w, h): Size) -> Size {
    (w.div_ceil(2), h.div_ceil(2))
}

/// The count of numbers of the coarse net; none where it does not fit a `usize`.
pub fn coarse_len(size: Size) -> Option<usize> {
    refinement::refined_len(coarse_size(size), 0)
}

/// The count of details of a net of this size; none where it does not fit a `usize`.
pub fn details_len((w, h): Size) -> Option<usize> {
    w.checked_mul(h)?.checked_mul(DETAIL_RECORD)
}

/// The count of details that are merged with a coarse net of this size.
pub fn merged_details_len(size: Size) -> Option<usize> {
    details_len(refinement::refined_size(size, 1)?)
}

/// Whether a vertex, counted row by row, has even i and j.
pub fn kept(vertex: usize, w: usize) -> bool {
    (vertex % w).is_multiple_of(2) && (vertex / w).is_multiple_of(2)
}

/// The coarse control triangle of a kept vertex, not rounded.
fn coarse_triangle(vertex: &[i32]) -> [Point; 3] {
    let c = |k| oracle::control(vertex, k);
    [1, 2, 3].map(|k| {
        let [m, n] = others(k);
        over(sum(&[times(5, c(k)), times(-1, c(m)), times(-1, c(n))]), 3)
    })
}

/// Those of all kept vertices, row by row, as far as the net is lent.
fn coarse_triangles(net: &[i32], (w, h): Size) -> impl Iterator<Item = [Point; 3]> + '_ {
    let lent = net.chunks_exact(RECORD).take(w.saturating_mul(h));
    let vertices = lent.enumerate().filter(move |&(n, _)| kept(n, w));
    vertices.map(|(_, vertex)| coarse_triangle(vertex))
}

/// The control points of a net.
fn points(net: &[i32]) -> impl Iterator<Item = Point> + '_ {
    net.chunks_exact(POINT_RECORD).map(oracle::point)
}

/// The details of control points.
fn detail_points(details: &[i32]) -> impl Iterator<Item = Point> + '_ {
    details.chunks_exact(DETAIL_RECORD / 3).map(oracle::point)
}

/// The control points of the merged net as far as the details are lent; none where the coarse
/// net is too short to be refined.
fn merged_points(coarse: &[i32], details: &[i32], (w, h): Size) -> Vec<Point> {
    if oracle::short(coarse.len(), w, h) || refinement::refined_size((w, h), 1).is_none() {
        return Vec::new();
    }
    let numbers = coarse;
    let refined = refinement::one_step(&Net { numbers, w, h });
    let pairs = points(&refined).zip(detail_points(details));
    pairs.map(|(c, detail)| sum(&[c, detail])).collect()
}

/// A net minus another one, number by number, as far as both are lent.
pub fn difference(net: &[i32], other: &[i32]) -> Vec<i32> {
    let controls = net.chunks_exact(POINT_RECORD);
    let pairs = controls.zip(other.chunks_exact(POINT_RECORD));
    let coordinates = [0, 1, 2];
    pairs
        .flat_map(|(c, other)| coordinates.map(|x| c[x] - other[x]))
        .collect()
}

/// The numbers of a net of these control points.
fn rounded_net(points: impl Iterator<Item = Point>) -> Vec<i32> {
    let rounded = |exact| -> Control { oracle::rounded(exact) };
    points.flat_map(rounded).collect()
}

/// Whether a number of a net of these control points is outside the net range.
fn outside(points: impl Iterator<Item = Point>) -> bool {
    let limit = i128::from(LIMIT);
    let mut numbers = points.flatten().map(|x| x.rounded());
    numbers.any(|x| !(-limit..=limit).contains(&x))
}

fn even_side((w, h): Size) -> bool {
    w.is_multiple_of(2) || h.is_multiple_of(2)
}

/// Whether one of the details, as far as they are lent, is beyond its range.
fn detail_fault(details: &[i32], count: Option<usize>) -> bool {
    let mut lent = details.iter().take(count.unwrap_or(usize::MAX));
    lent.any(|x| !(-DETAIL_LIMIT..=DETAIL_LIMIT).contains(x))
}

/// `coarse` and `details` are the lengths of the lent outputs.
pub fn split_faults(net: &[i32], (w, h): Size, coarse: usize, details: usize) -> Faults {
    let size = (w, h);
    let no_room = too_short(coarse, coarse_len(size)) || too_short(details, details_len(size));
    vec![
        (oracle::size_fault(w, h), 1),
        (even_side(size), 10),
        (oracle::short(net.len(), w, h), 2),
        (no_room, 5),
        (oracle::net_fault(net, w, h), 3),
        (outside(coarse_triangles(net, size).flatten()), 11),
    ]
}

/// `coarse` and `details` are the lengths of the lent outputs.
pub fn split(net: &[i32], size: Size, coarse: usize, details: usize) -> Result<Split, u32> {
    oracle::accepted(&split_faults(net, size, coarse, details))?;
    let coarse = rounded_net(coarse_triangles(net, size).flatten());
    let refined = refinement::refined(&coarse, coarse_size(size), 1);
    // The refined net has this size, so no number behind is taken.
    let details = difference(net, &refined);
    Ok(Split { coarse, details })
}

/// The size is the coarse net's, `out` the length of the lent output.
pub fn merge_faults(coarse: &[i32], details: &[i32], (w, h): Size, out: usize) -> Faults {
    let size = (w, h);
    let needed = merged_details_len(size);
    let short = oracle::short(coarse.len(), w, h) || too_short(details.len(), needed);
    let beyond = oracle::net_fault(coarse, w, h) || detail_fault(details, needed);
    let merged = merged_points(coarse, details, size);
    vec![
        (oracle::size_fault(w, h), 1),
        (refinement::too_fine(size, 1), 4),
        (short, 2),
        (too_short(out, refinement::refined_len(size, 1)), 5),
        (beyond, 3),
        (outside(merged.into_iter()), 11),
    ]
}

/// The numbers of the merged net.
pub fn merge(coarse: &[i32], details: &[i32], size: Size, out: usize) -> Result<Vec<i32>, u32> {
    oracle::accepted(&merge_faults(coarse, details, size, out))?;
    let merged = merged_points(coarse, details, size);
    Ok(rounded_net(merged.into_iter()))
}

/// The size is that of the net whose details they are.
pub fn clean_faults(details: &[i32], (w, h): Size, t: u32) -> Faults {
    let needed = details_len((w, h));
    vec![
        (oracle::size_fault(w, h), 1),
        (even_side((w, h)), 10),
        (i64::from(t) > i64::from(DETAIL_LIMIT), 12),
        (too_short(details.len(), needed), 2),
        (detail_fault(details, needed), 3),
    ]
}

/// The cleaned details of a net of this size.
pub fn clean(details: &[i32], size: Size, t: u32) -> Result<Vec<i32>, u32> {
    oracle::accepted(&clean_faults(details, size, t))?;
    let below = |x: i32| i64::from(x).abs() < i64::from(t);
    let cleaned = |&x: &i32| if below(x) { 0 } else { x };
    let details = &details[..record::details(size)];
    Ok(details.iter().map(cleaned).collect())
}
