//! The questions with an outline.

use super::number;
use crate::call::{
    bits_answer, door_answer, numbers_answer, vertex_answer, Answer, Ask, Call, Outlined,
};
use crate::kernel::{DoorRoom, Output, RefinedDoor, RefiningDoor};
use crate::oracle;
use crate::outlines::{self, Lengths};
use ups::{lent, Door, Net, Refusal};

impl Call {
    pub(super) fn outlined_of_lent(&self, outline: &Outlined) -> Answer {
        let (net, w, h, on) = (&self.net, self.w, self.h, &outline.bytes);
        match self.ask {
            Ask::Check => {
                let mut search = Output::<u32>::new(outline.search_len);
                let answer = number(&lent::check_outline(on, w, h, search.slice()));
                search.check_search(answer, (w, h));
                vertex_answer(answer)
            }
            Ask::Bezier { i, j, down } => {
                assert!(down <= 1, "up or down");
                let (down, mut out) = (down == 1, Output::new(self.out_len));
                let answer = lent::bezier_net_outlined(net, w, h, on, i, j, down, out.slice());
                numbers_answer::<{ oracle::BEZIER_NUMBERS }>(out.result(number(&answer)))
            }
            Ask::Surface { p, q } => {
                let mut out = Output::new(self.out_len);
                let answer = lent::surface_point_outlined(net, w, h, on, p, q, out.slice());
                numbers_answer::<{ oracle::POINT_NUMBERS }>(out.result(number(&answer)))
            }
            Ask::View { p, q } => {
                let mut out = Output::<f64>::new(self.out_len);
                let answer = lent::view_point_outlined(net, w, h, on, p, q, out.slice());
                let point = out.result::<{ oracle::POINT_NUMBERS }>(number(&answer));
                bits_answer(point.map(|point| point.map(f64::to_bits)))
            }
            Ask::Refine { k, scratch_len } => {
                let mut room = self.room(scratch_len, outline);
                let (out, by) = (room.plain.out.slice(), room.plain.scratch.slice());
                let (fine, search) = (room.fine.slice(), room.search.slice());
                let answer = lent::refine_outlined(net, w, h, k, on, out, by, fine, search);
                door_answer(room.result(number(&answer), (w, h), k))
            }
            Ask::RefinedPoint {
                k,
                p,
                q,
                scratch_len,
                point_len,
            } => {
                let mut room = self.room(scratch_len, outline);
                let mut point = Output::new(point_len);
                let (out, by) = (room.plain.out.slice(), room.plain.scratch.slice());
                let (fine, search, to) = (room.fine.slice(), room.search.slice(), point.slice());
                let answer =
                    lent::refined_point_outlined(net, w, h, k, on, p, q, out, by, fine, search, to);
                let refusal = number(&answer);
                let point = point.result(refusal).ok();
                let door = room.result(refusal, (w, h), k);
                door_answer(door.map(|door| RefinedDoor { point, ..door }))
            }
            _ => panic!("no call with an outline: {self:?}"),
        }
    }

    fn room(&self, scratch: usize, outline: &Outlined) -> RefiningDoor {
        RefiningDoor::new(DoorRoom::new(Lengths {
            out: self.out_len,
            scratch,
            fine: outline.fine_len,
            search: outline.search_len,
        }))
    }

    /// The answer of the door that the net and the outline make.
    pub(super) fn asked_of_door(&self, net: Net, outline: &Outlined) -> Result<Answer, Refusal> {
        let door = Door::new(net, &outline.bytes)?;
        Ok(match self.ask {
            Ask::Bezier { i, j, down } => numbers_answer(Ok(door.bezier(i, j, down == 1)?)),
            Ask::Surface { p, q } => numbers_answer(Ok(door.point(p, q)?)),
            Ask::View { p, q } => bits_answer(Ok(door.view_point(p, q)?.map(f64::to_bits))),
            Ask::Refine { k, .. } => Answer::Door(self.refined_door(k, door.refine(k)?, None)),
            Ask::RefinedPoint { k, p, q, .. } => {
                let (refined, point) = door.refined_point(k, p, q)?;
                Answer::Door(self.refined_door(k, refined, Some(point)))
            }
            _ => panic!("no call of a door: {self:?}"),
        })
    }

    fn refined_door(&self, k: usize, door: Door, point: Option<[i32; 3]>) -> RefinedDoor {
        let outline = door.outline().to_vec();
        let numbers = self.refined_by(k, door.net().clone());
        RefinedDoor {
            numbers,
            outline,
            point,
        }
    }

    /// The oracle's answer where the door is made first: the first fault of its outline, and then
    /// of the call.
    pub(super) fn of_oracle_door(&self, outline: &Outlined) -> Answer {
        let door = outlines::Door::new(&outline.bytes, (self.w, self.h));
        let made = outlines::check_faults(&door, usize::MAX);
        match oracle::refusal(&made) {
            0 => {
                let plain = self.without_outline().with_room();
                plain.with_outline(&outline.bytes).of_oracle()
            }
            number => Answer::Refused(number),
        }
    }
}
