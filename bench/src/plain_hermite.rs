//! The net through given points in plain Rust, to compare the library with. Sums are formed in
//! `i64`, and every fault is found before the first store.

use crate::plain::{check_size, Refusal, LIMIT};
use crate::plain_refine::{triangles, triangles_mut, Size, Triangle};
use std::array;
use ups::{given_numbers, net_numbers, GIVEN_RECORD};

/// p, t1 and t2 of a vertex.
type Given = [[i32; GIVEN_RECORD / 3]; 3];

/// c1, c2 and c3 of a vertex.
fn controls(given: &Given) -> [[i64; 3]; 3] {
    let [p, t1, t2] = given.map(|vector| vector.map(i64::from));
    [
        array::from_fn(|x| p[x] + t1[x]),
        array::from_fn(|x| p[x] + t2[x]),
        array::from_fn(|x| p[x] - t1[x] - t2[x]),
    ]
}

/// All nine at once: with an early end after a vertex, and none within it, the test is fastest.
fn fits(given: &Given) -> bool {
    let limits = -i64::from(LIMIT)..=i64::from(LIMIT);
    let controls = controls(given);
    let values = controls.as_flattened().iter();
    values.fold(true, |all, value| all & limits.contains(value))
}

#[inline(never)]
pub fn from_points(given: &[i32], (w, h): Size, out: &mut [i32]) -> Result<(), Refusal> {
    check_size(w, h)?;
    let given = given.get(..given_numbers(w, h)).ok_or(2_u32)?;
    let out = out.get_mut(..net_numbers(w, h)).ok_or(5_u32)?;
    let given: &[Given] = triangles(given);
    if !given.iter().all(fits) {
        return Err(16);
    }
    let out: &mut [Triangle] = triangles_mut(out);
    for (target, vertex) in out.iter_mut().zip(given) {
        // In range, as tested.
        *target = controls(vertex).map(|control| control.map(|x| x as i32));
    }
    Ok(())
}
