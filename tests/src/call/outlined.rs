//! The calls with an outline: each is a call without one, and the outline beside it.

use super::{bits_answer, door_answer, lent_len, numbers_answer, vertex_answer, Answer, Ask, Call};
use crate::kernel::{DoorRoom, LentNet, LentOutline, Number, RefinedDoor};
use crate::oracle::{self, Faults, Kind};
use crate::outlines::{self, Door, Lengths};
use crate::refinement;
use std::fmt;

/// The bytes, and the lengths of the fine outline and of the search, where they are lent.
#[derive(Clone)]
pub struct Outlined {
    pub bytes: Vec<u8>,
    pub fine_len: usize,
    pub search_len: usize,
}

// Some bytes are enough in a message.
impl fmt::Debug for Outlined {
    fn fmt(&self, to: &mut fmt::Formatter) -> fmt::Result {
        let (len, fine, search) = (self.bytes.len(), self.fine_len, self.search_len);
        let some = &self.bytes[..len.min(64)];
        write!(
            to,
            "outline {some:?} of {len}, fine {fine}, search {search}"
        )
    }
}

impl Outlined {
    pub fn lent(&self) -> LentOutline {
        LentOutline::new(&self.bytes)
    }
}

impl Call {
    /// Checks an outline.
    pub fn check_of(bytes: &[u8], size: (usize, usize)) -> Self {
        Call::new(&[], size, Ask::Check).with_outline(bytes)
    }

    /// The call of the same question with an outline, and with the room that it needs, up to what
    /// `Call::new` lends.
    pub fn with_outline(self, bytes: &[u8]) -> Self {
        let size = (self.w, self.h);
        let search_len = lent_len(outlines::triangles(size));
        let (fine_len, search_len) = match self.ask {
            Ask::Refine { k, .. } | Ask::RefinedPoint { k, .. } => {
                (lent_len(outlines::fine_triangles(size, k)), search_len)
            }
            Ask::Check => (0, search_len),
            Ask::Bezier { .. } | Ask::Surface { .. } | Ask::View { .. } => (0, 0),
            _ => panic!("no call with an outline: {self:?}"),
        };
        let outline = Some(Outlined {
            bytes: bytes.to_vec(),
            fine_len,
            search_len,
        });
        Call { outline, ..self }
    }

    /// The same question without the outline.
    pub fn without_outline(&self) -> Self {
        Call {
            outline: None,
            ..self.clone()
        }
    }

    fn lengths(&self, scratch: usize, outline: &Outlined) -> Lengths {
        Lengths {
            out: self.out_len,
            scratch,
            fine: outline.fine_len,
            search: outline.search_len,
        }
    }

    pub(super) fn outlined_faults(&self, outline: &Outlined) -> Faults {
        let (net, out_len) = (&self.net, self.out_len);
        let door = &Door::new(&outline.bytes, (self.w, self.h));
        match self.ask {
            Ask::Check => outlines::check_faults(door, outline.search_len),
            Ask::Bezier { i, j, down } => outlines::bezier_faults(net, door, (i, j), down, out_len),
            Ask::Surface { p, q } | Ask::View { p, q } => {
                outlines::point_faults(net, door, (p, q), out_len)
            }
            Ask::Refine { k, scratch_len } => {
                outlines::refine_faults(net, door, k, self.lengths(scratch_len, outline))
            }
            Ask::RefinedPoint {
                k,
                p,
                q,
                scratch_len,
                point_len,
            } => {
                let lengths = self.lengths(scratch_len, outline);
                outlines::refined_point_faults(net, door, k, (p, q), lengths, point_len)
            }
            _ => panic!("no call with an outline: {self:?}"),
        }
    }

    /// Where accepted, the answer without an outline, and the fine outline beside it.
    pub(super) fn outlined_of_oracle(&self, outline: &Outlined) -> Answer {
        let number = oracle::refusal(&self.outlined_faults(outline));
        if number > 0 || self.ask == Ask::Check {
            return vertex_answer(number);
        }
        let door = Door::new(&outline.bytes, (self.w, self.h));
        let refined = |k, numbers, point| {
            let outline = door.refined(k);
            Answer::Door(RefinedDoor {
                numbers,
                outline,
                point,
            })
        };
        match (self.ask, self.without_outline().of_oracle()) {
            (Ask::Refine { k, .. }, Answer::Numbers(numbers)) => refined(k, numbers, None),
            (Ask::RefinedPoint { k, .. }, Answer::Refined((numbers, point))) => {
                refined(k, numbers, Some(point))
            }
            (_, answer) => answer,
        }
    }

    /// With this net and this outline lent.
    pub fn outlined_of_kernel(
        &self,
        net: &LentNet,
        outline: &Outlined,
        lent: &LentOutline,
    ) -> Answer {
        let (size, out_len) = ((self.w, self.h), self.out_len);
        match self.ask {
            Ask::Check => {
                let junk = u32::canary;
                vertex_answer(lent.check_outline(size, outline.search_len, junk))
            }
            Ask::Bezier { i, j, down } => {
                numbers_answer(net.bezier_net_outlined(lent, size, (i, j), down, out_len))
            }
            Ask::Surface { p, q } => {
                numbers_answer(net.surface_point_outlined(lent, size, (p, q), out_len))
            }
            Ask::View { p, q } => bits_answer(net.view_point_outlined(lent, size, (p, q), out_len)),
            Ask::Refine { k, scratch_len } => {
                let room = DoorRoom::new(self.lengths(scratch_len, outline));
                door_answer(net.refine_outlined(lent, size, k, room))
            }
            Ask::RefinedPoint {
                k,
                p,
                q,
                scratch_len,
                point_len,
            } => {
                let room = DoorRoom::new(self.lengths(scratch_len, outline));
                let place = (p, q);
                door_answer(net.refined_point_outlined(lent, size, k, place, room, point_len))
            }
            _ => panic!("no call with an outline: {self:?}"),
        }
    }
}

/// The Bézier net of each triangle, in the order of an outline's bytes.
pub fn bezier_asks(size: (usize, usize)) -> impl Iterator<Item = Ask> {
    outlines::all(size).map(|triangle| Ask::Bezier {
        i: triangle.i as usize,
        j: triangle.j as usize,
        down: u32::from(triangle.kind == Kind::Down),
    })
}

/// The five calls on a net with an outline: on the first triangle, and by so many steps.
pub fn outlined_asks(size: (usize, usize), k: usize) -> [Ask; 5] {
    let (i, j, down) = (0, 0, 0);
    let (p, q) = (300, 200);
    assert!(refinement::refined_size(size, k).is_some());
    [
        Ask::Bezier { i, j, down },
        Ask::Surface { p, q },
        Ask::View { p, q },
        Ask::refine(size, k),
        Ask::refined_point(size, k, (p, q)),
    ]
}
