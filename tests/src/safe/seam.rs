//! The points of a seam.

use super::number;
use crate::call::{Answer, Call};
use crate::kernel::LentSides;
use crate::seam::{Seam, Sides};
use ups::{lent, Net, Refusal};

impl Call {
    pub(super) fn lent_seam_points(&self, seam: &Seam) -> Result<Sides, u32> {
        let mut room = LentSides::new(self.seam_rooms(seam), seam.points_len);
        let [one, two] = &mut room.sides;
        let (out, by) = (one.out.slice(), one.scratch.slice());
        let (out2, by2) = (two.out.slice(), two.scratch.slice());
        let (net, w, h, to) = (&self.net, self.w, self.h, room.points.slice());
        let [(k, p, q), (l, p2, q2)] = seam.places.map(|at| (at.k, at.place.0, at.place.1));
        let answer = lent::seam_points(net, w, h, k, l, p, q, p2, q2, out, by, out2, by2, to);
        room.result(number(&answer), (w, h), seam.places)
    }
}

/// A net hands back the points alone.
pub(super) fn points_of(net: &Net, seam: &Seam) -> Result<Answer, Refusal> {
    let [one, two] = seam.places;
    let points = net.seam_points(one.k, two.k, one.place, two.place)?;
    Ok(Answer::Numbers(points.concat()))
}

pub(super) fn points_alone(answer: Answer) -> Answer {
    match answer {
        Answer::Sides(sides) => Answer::Numbers(sides.points.concat()),
        other => other,
    }
}
