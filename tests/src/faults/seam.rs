//! Faults of the points of a seam: those of the second side, and places that are not the same.

use super::{beyond_grid, MAX};
use crate::call::{Ask, Call};
use crate::order::Fault;
use crate::seam::{Seam, SEAM_NUMBERS};

fn seam(call: &mut Call) -> &mut Seam {
    match &mut call.ask {
        Ask::SeamPoints(seam) => seam,
        ask => panic!("{ask:?} has no seam"),
    }
}

fn set_second_steps(call: &mut Call, steps: usize) {
    seam(call).places[1].k = steps;
}

/// On the second side more steps than six, and six where a side is too long for them.
pub fn second_step_faults((w, h): (usize, usize)) -> Vec<Fault> {
    let mut faults: Vec<Fault> = vec![
        |c| set_second_steps(c, 7),
        |c| set_second_steps(c, 1 << 32),
        |c| set_second_steps(c, MAX),
    ];
    if w.max(h) > 17 {
        faults.push(|c| set_second_steps(c, 6));
    }
    faults
}

/// p or q of a place, by a number from 0 to 3: p, q, p2, q2.
fn number(call: &mut Call, n: usize) -> &mut usize {
    let (p, q) = &mut seam(call).places[n / 2].place;
    match n % 2 {
        0 => p,
        _ => q,
    }
}

fn move_by(call: &mut Call, n: usize, by: usize) {
    let number = number(call, n);
    *number = number.wrapping_add(by);
}

fn move_beyond(call: &mut Call, n: usize, beyond: fn(usize) -> usize) {
    let side = [call.w, call.h][n % 2];
    let k = seam(call).places[n / 2].k;
    *number(call, n) = beyond(beyond_grid(side, k));
}

/// By 2^64 over the power of 2 that it is multiplied by, so that the product would wrap to what it
/// was; where that power is 1, by 2^63.
fn wrap(call: &mut Call, n: usize) {
    let steps = seam(call).places[1 - n / 2].k;
    move_by(call, n, 1 << (64 - steps.clamp(1, 6)));
}

/// 2^63, and 0 on the other side: with a step on that side its product would wrap to 0.
fn wrap_to_zero(call: &mut Call, n: usize) {
    let other = (n + 2) % 4;
    *number(call, other) = 0;
    *number(call, n) = 1 << 63;
}

/// Beyond the second grid; on both grids, but not the same place; and numbers whose products with
/// 2^k or 2^l would wrap to the same.
pub fn second_place_faults() -> Vec<Fault> {
    vec![
        |c| move_beyond(c, 2, |first| first),
        |c| move_beyond(c, 2, |_| MAX),
        |c| move_beyond(c, 3, |first| first),
        |c| move_beyond(c, 3, |_| MAX),
        |c| move_by(c, 0, 1),
        |c| move_by(c, 1, 1),
        |c| move_by(c, 2, 1),
        |c| move_by(c, 3, 1),
        |c| wrap(c, 0),
        |c| wrap(c, 1),
        |c| wrap(c, 2),
        |c| wrap(c, 3),
        |c| wrap_to_zero(c, 0),
        |c| wrap_to_zero(c, 3),
    ]
}

fn shorten_second_scratch(call: &mut Call, shorter: fn(usize) -> usize) {
    let [_, len] = &mut seam(call).scratch_lens;
    *len = shorter(*len);
}

/// Of the second output and scratch, and of the points.
pub fn second_output_faults(seam_of: &Seam) -> Vec<Fault> {
    let mut faults: Vec<Fault> = vec![
        |c| c.out2_len = c.out2_len.saturating_sub(1),
        |c| c.out2_len = 0,
        |c| seam(c).points_len = SEAM_NUMBERS - 1,
        |c| seam(c).points_len = SEAM_NUMBERS / 2,
        |c| seam(c).points_len = 0,
    ];
    if seam_of.places[1].k >= 2 {
        faults.push(|c| shorten_second_scratch(c, |needed| needed - 1));
        faults.push(|c| shorten_second_scratch(c, |_| 0));
    }
    faults
}
