//! Faults to put into a call, by their numbers; of a seam, into its first side. `seam` has those of
//! its second side.

mod seam;

use crate::call::{Ask, Call};
use crate::netfile;
use crate::oracle::LIMIT;
use crate::order::{self, Fault};
use crate::record::{self, GIVEN_RECORD, RECORD};
use crate::refinement;
use crate::seam::{RefinedPlace, Seam};
pub use seam::{second_output_faults, second_place_faults, second_step_faults};

const MAX: usize = usize::MAX;

type Size = (usize, usize);

pub fn refines(ask: Ask) -> bool {
    matches!(
        ask,
        Ask::Refine { .. } | Ask::RefinedPoint { .. } | Ask::SeamPoints(_)
    )
}

/// Numbers of a vertex in the net, or in the given points, that a call is lent to read.
fn record_of(call: &Call) -> usize {
    match call.ask {
        Ask::FromPoints => GIVEN_RECORD,
        _ => RECORD,
    }
}

/// Makes the net and a file, or the given points and the net, long enough for their size, so that
/// number 1 can stand alone. Where a net is refined it cannot, since a side above 1,025 is number 4
/// as well.
fn lengthen(call: &mut Call) {
    if refines(call.ask) {
        return;
    }
    call.net.resize(record_of(call) * call.w * call.h, 0);
    match call.ask {
        Ask::Write { .. } => {
            call.out_len = netfile::file_len(call.w, call.h).expect("a length");
        }
        Ask::FromPoints => call.out_len = record::numbers((call.w, call.h)),
        _ => {}
    }
}

pub fn size_faults() -> Vec<Fault> {
    let mut faults = order::SIDES.to_vec();
    faults.push(|c| {
        c.w = 1026;
        lengthen(c);
    });
    faults.push(|c| {
        c.h = 1026;
        lengthen(c);
    });
    faults
}

fn set_steps(call: &mut Call, steps: usize) {
    if let Ask::Refine { k, .. }
    | Ask::RefinedPoint { k, .. }
    | Ask::SeamPoints(Seam {
        places: [RefinedPlace { k, .. }, _],
        ..
    }) = &mut call.ask
    {
        *k = steps;
    }
}

/// More steps than six, and six where a side is too long for them.
pub fn step_faults((w, h): Size) -> Vec<Fault> {
    let mut faults: Vec<Fault> = vec![|c| set_steps(c, 7), |c| set_steps(c, 1 << 32), |c| {
        set_steps(c, MAX)
    }];
    if w.max(h) > 17 {
        faults.push(|c| set_steps(c, 6));
    }
    faults
}

/// The first place beyond the grid after k steps; any where there is no such grid.
pub fn beyond_grid(side: usize, k: usize) -> usize {
    let refined = refinement::refined_size((side, side), k);
    let last = refined.and_then(|(side, _)| side.wrapping_sub(1).checked_mul(1024));
    last.map_or(MAX, |last| last.saturating_add(1))
}

fn column(call: &mut Call, beyond: fn(usize) -> usize) {
    let w = call.w;
    match &mut call.ask {
        Ask::Vertex { i, .. } => *i = beyond(w),
        Ask::Bezier { i, .. } => *i = beyond(w.wrapping_sub(1)),
        Ask::Surface { p, .. } | Ask::View { p, .. } => *p = beyond(beyond_grid(w, 0)),
        Ask::RefinedPoint { p, k, .. } => *p = beyond(beyond_grid(w, *k)),
        Ask::SeamPoints(Seam {
            places: [at, _], ..
        }) => {
            at.place.0 = beyond(beyond_grid(w, at.k));
        }
        _ => {}
    }
}

fn row(call: &mut Call, beyond: fn(usize) -> usize) {
    let h = call.h;
    match &mut call.ask {
        Ask::Vertex { j, .. } => *j = beyond(h),
        Ask::Bezier { j, .. } => *j = beyond(h.wrapping_sub(1)),
        Ask::Surface { q, .. } | Ask::View { q, .. } => *q = beyond(beyond_grid(h, 0)),
        Ask::RefinedPoint { q, k, .. } => *q = beyond(beyond_grid(h, *k)),
        Ask::SeamPoints(Seam {
            places: [at, _], ..
        }) => {
            at.place.1 = beyond(beyond_grid(h, at.k));
        }
        _ => {}
    }
}

fn kind(call: &mut Call, number: u32) {
    if let Ask::Bezier { down, .. } = &mut call.ask {
        *down = number;
    }
}

pub fn place_faults(ask: Ask) -> Vec<Fault> {
    let mut faults: Vec<Fault> = vec![
        |c| column(c, |first| first),
        |c| column(c, |_| MAX),
        |c| row(c, |first| first),
        |c| row(c, |_| MAX),
    ];
    if matches!(ask, Ask::Bezier { .. }) {
        faults.push(|c| kind(c, 2));
        faults.push(|c| kind(c, u32::MAX));
    }
    faults
}

pub fn net_faults() -> Vec<Fault> {
    vec![
        // One number missing, where the size allows a net to be lent.
        |c| {
            let vertices = c.w.checked_mul(c.h);
            let needed = vertices.and_then(|n| n.checked_mul(record_of(c)));
            let len = needed.unwrap_or(0).saturating_sub(1);
            c.net.truncate(len);
        },
        // The first vertex only, which holds the number that may be beyond its range.
        |c| c.net.truncate(record_of(c)),
        |c| c.net.clear(),
    ]
}

fn no_count(call: &mut Call) {
    if let Ask::Write { written_len } = &mut call.ask {
        *written_len = 0;
    }
}

fn shorten_scratch(call: &mut Call, shorter: fn(usize) -> usize) {
    if let Ask::Refine { scratch_len, .. }
    | Ask::RefinedPoint { scratch_len, .. }
    | Ask::SeamPoints(Seam {
        scratch_lens: [scratch_len, _],
        ..
    }) = &mut call.ask
    {
        *scratch_len = shorter(*scratch_len);
    }
}

fn shorten_point(call: &mut Call, len: usize) {
    if let Ask::RefinedPoint { point_len, .. } = &mut call.ask {
        *point_len = len;
    }
}

pub fn output_faults(ask: Ask) -> Vec<Fault> {
    let mut faults: Vec<Fault> = vec![|c| c.out_len = c.out_len.saturating_sub(1), |c| {
        c.out_len = 0
    }];
    match ask {
        Ask::Write { .. } => faults.push(no_count),
        Ask::RefinedPoint { .. } => {
            faults.push(|c| shorten_point(c, 2));
            faults.push(|c| shorten_point(c, 0));
        }
        _ => {}
    }
    if let Ask::Refine { k: 2.., .. }
    | Ask::RefinedPoint { k: 2.., .. }
    | Ask::SeamPoints(Seam {
        places: [RefinedPlace { k: 2.., .. }, _],
        ..
    }) = ask
    {
        faults.push(|c| shorten_scratch(c, |needed| needed - 1));
        faults.push(|c| shorten_scratch(c, |_| 0));
    }
    faults
}

/// Numbers at the ends of a range and beyond it, each with its refusal: 0 where it is in the range.
pub fn at_limits(limit: i32, refusal: u32) -> [(i32, u32); 6] {
    [
        (limit, 0),
        (-limit, 0),
        (limit + 1, refusal),
        (-limit - 1, refusal),
        (i32::MAX, refusal),
        (i32::MIN, refusal),
    ]
}

pub fn number_faults() -> Vec<Fault> {
    vec![|c| c.net[0] = LIMIT + 1, |c| c.net[0] = i32::MIN, |c| {
        c.net.fill(i32::MAX)
    }]
}

/// x of p, t1 and t2 of the first vertex, all else of it 0.
fn set_given(call: &mut Call, [p, t1, t2]: [i32; 3]) {
    let [y, z] = [0; 2];
    let numbers: [i32; GIVEN_RECORD] = [p, y, z, t1, y, z, t2, y, z];
    call.net[..GIVEN_RECORD].copy_from_slice(&numbers);
}

/// Given points of which a control value is beyond the net range: of the first vertex, by a little
/// and by a sum that leaves 32 bits, and of all vertices.
pub fn control_faults() -> Vec<Fault> {
    vec![
        |c| set_given(c, [LIMIT, 1, 0]),
        |c| set_given(c, [0, 0, -LIMIT - 1]),
        |c| set_given(c, [1_431_655_765, -1_431_655_765, -1_431_655_765]),
        |c| c.net.fill(i32::MIN),
    ]
}

/// The bytes of the call's outline; none where it has no outline.
fn bytes(call: &mut Call) -> &mut [u8] {
    match &mut call.outline {
        Some(outline) => &mut outline.bytes,
        None => &mut [],
    }
}

/// The first triangle, on which the calls ask, is missing, or all are.
pub fn door_faults() -> Vec<Fault> {
    vec![|c| bytes(c)[0] = 0, |c| bytes(c).fill(0)]
}

/// Two triangles that are apart, beside the first.
pub fn connection_faults() -> Vec<Fault> {
    vec![|c| {
        let bytes = bytes(c);
        bytes[1..].fill(0);
        bytes[4] = 1;
        bytes[bytes.len() - 1] = 1;
    }]
}

pub fn byte_faults() -> Vec<Fault> {
    vec![
        |c| bytes(c)[0] = 2,
        |c| {
            let bytes = bytes(c);
            bytes[bytes.len() - 1] = 255;
        },
        |c| bytes(c).fill(2),
    ]
}

/// A byte less, or none but the first, or none.
pub fn short_outline_faults() -> Vec<Fault> {
    vec![
        |c| shorten_outline(c, |len| len - 1),
        |c| shorten_outline(c, |_| 1),
        |c| shorten_outline(c, |_| 0),
    ]
}

fn shorten_outline(call: &mut Call, shorter: fn(usize) -> usize) {
    if let Some(outline) = &mut call.outline {
        let len = shorter(outline.bytes.len());
        outline.bytes.truncate(len);
    }
}

fn shorten_search(call: &mut Call, shorter: fn(usize) -> usize) {
    if let Some(outline) = &mut call.outline {
        outline.search_len = shorter(outline.search_len);
    }
}

fn shorten_fine(call: &mut Call, shorter: fn(usize) -> usize) {
    if let Some(outline) = &mut call.outline {
        outline.fine_len = shorter(outline.fine_len);
    }
}

/// Of the search, and of the fine outline where there is one.
pub fn search_faults(ask: Ask) -> Vec<Fault> {
    let mut faults: Vec<Fault> = vec![
        |c| shorten_search(c, |needed| needed.saturating_sub(1)),
        |c| shorten_search(c, |_| 0),
    ];
    if refines(ask) {
        faults.push(|c| shorten_fine(c, |needed| needed.saturating_sub(1)));
        faults.push(|c| shorten_fine(c, |_| 0));
    }
    faults
}
