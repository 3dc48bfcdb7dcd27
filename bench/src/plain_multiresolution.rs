//! Split, merge and clean in plain Rust, to compare the library with. Split and merge get the
//! rule for a row of the refinement: the one with the weight table, or the one written out for
//! each kind of vertex. Every fault is found before the first store.

use crate::plain::{check_lengths, check_size, Control, Refusal, LIMIT};
use crate::plain_refine::{refined, triangles, triangles_mut, Row, Size, Triangle};
use std::array;
use ups::{detail_numbers, net_numbers, DETAIL_RECORD};

/// The greatest size of a detail.
pub const DETAIL_LIMIT: i32 = 2 * LIMIT;

/// The details of a vertex's three control points.
type Details = [[i32; DETAIL_RECORD / 3]; 3];

/// The sizes of nets that can be split.
fn check_fine((w, h): Size) -> Result<(), Refusal> {
    check_size(w, h)?;
    if w.is_multiple_of(2) || h.is_multiple_of(2) {
        return Err(10);
    }
    Ok(())
}

/// The faults of sizes and of the lengths of what is lent.
pub fn check_split(
    net: &[i32],
    (w, h): Size,
    (coarse_len, details_len): (usize, usize),
) -> Result<(), Refusal> {
    check_fine((w, h))?;
    let coarse_numbers = net_numbers(w / 2 + 1, h / 2 + 1);
    check_lengths(net, (w, h), coarse_len, coarse_numbers)?;
    if details_len < detail_numbers(w, h) {
        return Err(5);
    }
    Ok(())
}

/// It goes through all numbers: without an early end the compiler tests several at once.
pub fn all_within(limit: i32, numbers: &[i32]) -> bool {
    let limits = -limit..=limit;
    numbers.iter().fold(true, |all, x| all & limits.contains(x))
}

#[inline(never)]
pub fn split(
    net: &[i32],
    size: Size,
    coarse: &mut [i32],
    details: &mut [i32],
    row: Row,
) -> Result<(), Refusal> {
    check_split(net, size, (coarse.len(), details.len()))?;
    let (w, h) = size;
    let net = &net[..net_numbers(w, h)];
    if !all_within(LIMIT, net) {
        return Err(3);
    }
    let net = triangles(net);
    if !coarse_net(net, w).all(|new| all_within(LIMIT, new.as_flattened())) {
        return Err(11);
    }
    let coarse = triangles_mut(coarse);
    let vertices = coarse_net(net, w).enumerate();
    // Faster than `for`, which would ask for the end of a row at each vertex.
    vertices.for_each(|(n, new)| coarse[n] = new);
    let targets = triangles_mut(details).chunks_exact_mut(w);
    let mut fine = vec![Triangle::default(); w];
    for (y, (source, target)) in net.chunks_exact(w).zip(targets).enumerate() {
        row(coarse, w / 2 + 1, y, &mut fine);
        for ((details, vertex), refined) in target.iter_mut().zip(source).zip(&fine) {
            *details = difference(vertex, refined);
        }
    }
    Ok(())
}

/// The coarse net of a net of this width.
fn coarse_net(net: &[Triangle], w: usize) -> impl Iterator<Item = Triangle> + '_ {
    let rows = net.chunks_exact(w).step_by(2);
    rows.flat_map(|row| row.iter().step_by(2).map(unrefined))
}

/// The coarse control triangle from that of a kept vertex. 5ck minus the other two is 6ck minus
/// all three, so one quotient for each coordinate will do. Thirds are never halves: a third more,
/// rounded down, is the nearest.
fn unrefined(c: &Triangle) -> Triangle {
    let thirds: Control = array::from_fn(|x| (1 - c[0][x] - c[1][x] - c[2][x]).div_euclid(3));
    array::from_fn(|k| array::from_fn(|x| 2 * c[k][x] + thirds[x]))
}

fn difference(vertex: &Triangle, refined: &Triangle) -> Details {
    array::from_fn(|k| array::from_fn(|x| vertex[k][x] - refined[k][x]))
}

#[inline(never)]
pub fn merge(
    coarse: &[i32],
    details: &[i32],
    size: Size,
    out: &mut [i32],
    row: Row,
) -> Result<(), Refusal> {
    let (coarse, details) = merged_parts(coarse, details, size, out.len())?;
    let (wide, _) = refined(size, 1);
    if !all_within(LIMIT, coarse) {
        return Err(3);
    }
    let coarse = triangles(coarse);
    check_sums(coarse, size, details, row)?;
    let targets = triangles_mut(out).chunks_exact_mut(wide);
    let sources = triangles(details).chunks_exact(wide);
    for (y, (target, source)) in targets.zip(sources).enumerate() {
        row(coarse, size.0, y, target);
        for (vertex, details) in target.iter_mut().zip(source) {
            *vertex = sum(vertex, details);
        }
    }
    Ok(())
}

/// The coarse net and the details without what follows them, and the faults of sizes and lengths.
pub fn merged_parts<'a>(
    coarse: &'a [i32],
    details: &'a [i32],
    (w, h): Size,
    out_len: usize,
) -> Result<(&'a [i32], &'a [i32]), Refusal> {
    check_size(w, h)?;
    let (wide, high) = refined((w, h), 1);
    check_size(wide, high).map_err(|_| 4_u32)?;
    let count = detail_numbers(wide, high);
    let details = details.get(..count).ok_or(2_u32)?;
    check_lengths(coarse, (w, h), out_len, net_numbers(wide, high))?;
    Ok((&coarse[..net_numbers(w, h)], details))
}

/// Refuses details that are out of range, or with which a sum is. Refined numbers are in range,
/// so a sum in range has its detail in range: the details are tested only where a sum is not.
fn check_sums(coarse: &[Triangle], size: Size, details: &[i32], row: Row) -> Result<(), Refusal> {
    let (wide, _) = refined(size, 1);
    let mut fine = vec![Triangle::default(); wide];
    let mut rows = triangles(details).chunks_exact(wide).enumerate();
    let fits = rows.all(|(y, source)| {
        row(coarse, size.0, y, &mut fine);
        let vertices = fine.iter().zip(source);
        let sums = vertices.map(|(vertex, details)| sum(vertex, details));
        sums.fold(true, |all, sum| all & all_within(LIMIT, sum.as_flattened()))
    });
    if fits {
        Ok(())
    } else {
        Err(misfit(details))
    }
}

/// The refusal where a sum is out of range.
pub fn misfit(details: &[i32]) -> Refusal {
    if all_within(DETAIL_LIMIT, details) {
        11
    } else {
        3
    }
}

/// The merged control triangle. A sum that is too large for `i32` comes out far out of range.
fn sum(vertex: &Triangle, details: &Details) -> Triangle {
    let mut sum = *vertex;
    for (point, details) in sum.iter_mut().zip(details) {
        for (x, detail) in point.iter_mut().zip(details) {
            *x = x.wrapping_add(*detail);
        }
    }
    sum
}

#[inline(never)]
pub fn clean(details: &mut [i32], (w, h): Size, t: u32) -> Result<(), Refusal> {
    check_fine((w, h))?;
    if t > DETAIL_LIMIT as u32 {
        return Err(12);
    }
    let details = details.get_mut(..detail_numbers(w, h)).ok_or(2_u32)?;
    if !all_within(DETAIL_LIMIT, details) {
        return Err(3);
    }
    for detail in details {
        // Those that stay are stored too: without a branch several are stored at once.
        let small = detail.unsigned_abs() < t;
        *detail = if small { 0 } else { *detail };
    }
    Ok(())
}
