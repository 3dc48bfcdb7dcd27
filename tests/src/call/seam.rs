//! The points of a seam.

use super::{lent_len, Answer, Ask, Call};
use crate::kernel::{LentNet, Room};
use crate::oracle::Faults;
use crate::refinement;
use crate::seam::{self, RefinedPlace, Seam, Sides, SEAM_NUMBERS};

impl Ask {
    /// With the scratches that the steps need, up to `MOST`.
    pub fn seam_points(size: (usize, usize), places: [RefinedPlace; 2]) -> Self {
        Ask::SeamPoints(Seam {
            places,
            scratch_lens: places.map(|at| lent_len(refinement::scratch_len(size, at.k))),
            points_len: SEAM_NUMBERS,
        })
    }
}

impl Call {
    /// The length of the output for the second refined net, up to `MOST`.
    pub(super) fn second_len(size: (usize, usize), ask: Ask) -> usize {
        match ask {
            Ask::SeamPoints(seam) => lent_len(refinement::refined_len(size, seam.places[1].k)),
            _ => 0,
        }
    }

    fn outs(&self) -> [usize; 2] {
        [self.out_len, self.out2_len]
    }

    /// What is lent on each side.
    pub(crate) fn seam_rooms(&self, seam: &Seam) -> [Room; 2] {
        [0, 1].map(|side| Room::new(self.outs()[side], seam.scratch_lens[side]))
    }

    pub(super) fn seam_faults(&self, seam: &Seam) -> Faults {
        seam::seam_faults(&self.net, (self.w, self.h), seam, self.outs())
    }

    pub(super) fn seam_of_oracle(&self, seam: &Seam) -> Answer {
        let size = (self.w, self.h);
        sides_answer(seam::seam_points(&self.net, size, seam, self.outs()))
    }

    pub(super) fn seam_of_kernel(&self, net: &LentNet, seam: &Seam) -> Answer {
        let (size, rooms) = ((self.w, self.h), self.seam_rooms(seam));
        sides_answer(net.seam_points(size, seam.places, rooms, seam.points_len))
    }
}

pub(crate) fn sides_answer(answer: Result<Sides, u32>) -> Answer {
    answer.map_or_else(Answer::Refused, Answer::Sides)
}
