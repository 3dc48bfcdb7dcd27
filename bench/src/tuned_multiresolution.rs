//! Split and merge in tuned Rust, to compare the library with. What is tuned is taken from the
//! library's own ways of rounding and testing:
//! - Numbers whose sizes alone tell that the results are in range are tested no further, row by
//!   row: a row is still in the cache when it is tested again.
//! - A row is refined and its differences or sums are formed in one loop.
//! - Thirds are quotients without a sign, of sums that are raised above zero.
//!
//! Every fault is found before the first store.

use crate::plain::{Control, Refusal, LIMIT};
use crate::plain_multiresolution::{all_within, check_split, merged_parts, misfit};
use crate::plain_refine::{refined, triangles, triangles_mut, Size, Triangle};
use crate::tuned_refine::row;
use std::array;
use ups::net_numbers;

/// The coarse numbers of numbers up to this size are in range: they are at most 7/3 as great, and
/// a third for the rounding.
const COARSE_LIMIT: i32 = (LIMIT / 7) * 3 - 1;

#[inline(never)]
pub fn split(
    net: &[i32],
    size: Size,
    coarse: &mut [i32],
    details: &mut [i32],
) -> Result<(), Refusal> {
    check_split(net, size, (coarse.len(), details.len()))?;
    let (w, h) = size;
    let coarse_w = w / 2 + 1;
    let net = triangles(&net[..net_numbers(w, h)]);
    check_coarse(net, w)?;
    let coarse = triangles_mut(coarse);
    coarse_row(&net[..w], &mut coarse[..coarse_w]);
    let targets = triangles_mut(details).chunks_exact_mut(w);
    for (y, (source, target)) in net.chunks_exact(w).zip(targets).enumerate() {
        // An odd row is made from the coarse row after it too.
        if !y.is_multiple_of(2) {
            let next = y.div_ceil(2) * coarse_w;
            coarse_row(&net[(y + 1) * w..][..w], &mut coarse[next..][..coarse_w]);
        }
        row(coarse, coarse_w, y, source, target, difference);
    }
    Ok(())
}

fn numbers(vertices: &[Triangle]) -> &[i32] {
    vertices.as_flattened().as_flattened()
}

/// Refuses a net that has a number out of range, or whose coarse net has one.
fn check_coarse(net: &[Triangle], w: usize) -> Result<(), Refusal> {
    let mut fits = true;
    for (y, row) in net.chunks_exact(w).enumerate() {
        if !all_within(LIMIT, numbers(row)) {
            return Err(3);
        }
        if y.is_multiple_of(2) && !all_within(COARSE_LIMIT, numbers(row)) {
            let mut kept = row.iter().step_by(2).map(unrefined);
            fits &= kept.all(|new| all_within(LIMIT, new.as_flattened()));
        }
    }
    fits.then_some(()).ok_or(11)
}

/// A row of the coarse net, from the row of the net that keeps its vertices.
fn coarse_row(row: &[Triangle], out: &mut [Triangle]) {
    for (target, vertex) in out.iter_mut().zip(row.iter().step_by(2)) {
        *target = unrefined(vertex);
    }
}

/// The coarse control triangle from that of a kept vertex. 5ck minus the other two is 6ck minus
/// all three, so one quotient for each coordinate will do. Thirds are never halves: a third more,
/// rounded down, is the nearest. The quotients are formed above zero, where they take less.
#[inline(always)]
fn unrefined(c: &Triangle) -> Triangle {
    let raised = |x: usize| 3 * LIMIT + 1 - c[0][x] - c[1][x] - c[2][x];
    let thirds: Control = array::from_fn(|x| (raised(x) as u32 / 3) as i32 - LIMIT);
    array::from_fn(|k| array::from_fn(|x| 2 * c[k][x] + thirds[x]))
}

#[inline(always)]
fn difference(vertex: &Triangle, refined: Triangle) -> Triangle {
    array::from_fn(|k| array::from_fn(|x| vertex[k][x] - refined[k][x]))
}

/// The merged control triangle. A sum that is too large for `i32` comes out far out of range.
#[inline(always)]
fn sum(details: &Triangle, refined: Triangle) -> Triangle {
    array::from_fn(|k| array::from_fn(|x| refined[k][x].wrapping_add(details[k][x])))
}

#[inline(never)]
pub fn merge(coarse: &[i32], details: &[i32], size: Size, out: &mut [i32]) -> Result<(), Refusal> {
    let (coarse, details) = merged_parts(coarse, details, size, out.len())?;
    let (wide, _) = refined(size, 1);
    if !all_within(LIMIT, coarse) {
        return Err(3);
    }
    check_sums(coarse, size, details)?;
    let targets = triangles_mut(out).chunks_exact_mut(wide);
    let sources = triangles(details).chunks_exact(wide);
    for (y, (target, source)) in targets.zip(sources).enumerate() {
        row(triangles(coarse), size.0, y, source, target, sum);
    }
    Ok(())
}

/// Refuses details that are out of range, or with which a sum is. Refined numbers are in range,
/// so a sum in range has its detail in range: the details are tested only where a sum is not.
fn check_sums(coarse: &[i32], size: Size, details: &[i32]) -> Result<(), Refusal> {
    let (wide, _) = refined(size, 1);
    let mut sums = vec![Triangle::default(); wide];
    // No refined number is greater than the greatest of the coarse net.
    let room = LIMIT - greatest(coarse);
    let mut rows = triangles(details).chunks_exact(wide).enumerate();
    let fits = rows.all(|(y, source)| {
        all_within(room, numbers(source)) || {
            row(triangles(coarse), size.0, y, source, &mut sums, sum);
            all_within(LIMIT, numbers(&sums))
        }
    });
    if fits {
        Ok(())
    } else {
        Err(misfit(details))
    }
}

/// The greatest size of numbers in range.
fn greatest(numbers: &[i32]) -> i32 {
    numbers.iter().fold(0, |most, x| most.max(x.abs()))
}
