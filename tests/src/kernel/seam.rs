//! The points of a seam.

use super::{LentNet, Output, Refining, Room};
use crate::seam::{RefinedPlace, Sides, SEAM_NUMBERS};
use ups::raw;

type Size = (usize, usize);

/// What is lent for the points of a seam.
pub(crate) struct LentSides {
    pub(crate) sides: [Refining; 2],
    pub(crate) points: Output<i32>,
}

impl LentSides {
    pub(crate) fn new(rooms: [Room; 2], points_len: usize) -> Self {
        LentSides {
            sides: rooms.map(Refining::new),
            points: Output::new(points_len),
        }
    }

    /// Both refined nets and both points when accepted. What is free is not looked at.
    pub(crate) fn result(
        &self,
        refusal: u32,
        size: Size,
        places: [RefinedPlace; 2],
    ) -> Result<Sides, u32> {
        // All are checked before a refusal is handed back.
        let points = self.points.result::<SEAM_NUMBERS>(refusal);
        let [one, two] = [0, 1].map(|n| self.sides[n].result(refusal, size, places[n].k));
        let [x, y, z, x2, y2, z2] = points?;
        Ok(Sides {
            nets: [one?, two?],
            points: [[x, y, z], [x2, y2, z2]],
        })
    }
}

impl LentNet {
    /// The numbers of the nets after the steps of both places, and the surface points there.
    pub fn seam_points(
        &self,
        (w, h): Size,
        places: [RefinedPlace; 2],
        rooms: [Room; 2],
        points_len: usize,
    ) -> Result<Sides, u32> {
        let mut lent = LentSides::new(rooms, points_len);
        let (net, len) = (self.pointer(), self.numbers.len());
        let [one, two] = &mut lent.sides;
        let (to, by) = (one.out.pointer(), one.scratch.pointer());
        let (to2, by2) = (two.out.pointer(), two.scratch.pointer());
        let [(to_len, by_len), (to2_len, by2_len)] = rooms.map(|r| (r.out_len, r.scratch_len));
        let (both, both_len) = (lent.points.pointer(), points_len);
        let [(k, p, q), (l, p2, q2)] = places.map(|at| (at.k, at.place.0, at.place.1));
        // SAFETY: each slice is lent with its length.
        let refusal = unsafe {
            raw::ups_seam_points(
                net, len, w, h, k, l, p, q, p2, q2, to, to_len, by, by_len, to2, to2_len, by2,
                by2_len, both, both_len,
            )
        };
        self.check();
        lent.result(refusal, (w, h), places)
    }
}
