//! The questions of `call` put to the safe interface of the crate `ups`: to its functions on lent
//! slices, in the same guarded memory, and to its nets. `outlined` has those with an outline, `seam`
//! the points of a seam.

mod outlined;
mod seam;

use crate::call::{
    bits_answer, bytes_answer, list_answer, numbers_answer, refined_answer, sides_answer,
    split_answer, vertex_answer, Answer, Ask, Call, Reading,
};
use crate::hermite;
use crate::kernel::{count, Output, RefinedPoint, Refining, Room};
use crate::multiresolution::{self, Split};
use crate::netfile::FileNet;
use crate::oracle::{self, BEZIER_NUMBERS, POINT_NUMBERS};
use crate::record::{self, RECORD};
use crate::refinement;
use std::ptr;
use ups::{lent, Net, Refusal};

/// 0 for none.
fn number<T>(answer: &Result<T, Refusal>) -> u32 {
    answer
        .as_ref()
        .map_or_else(|refusal| refusal.number(), |_| 0)
}

impl Call {
    /// The answer of the functions on lent slices. The crate itself lends the count of bytes of a
    /// file, and its triangles are up or down.
    pub fn of_lent(&self) -> Answer {
        if let Some(outline) = &self.outline {
            return self.outlined_of_lent(outline);
        }
        match self.ask {
            Ask::Vertex { i, j } => self.lent_vertex(i, j),
            Ask::Bezier { i, j, down } => numbers_answer(self.lent_bezier(i, j, down)),
            Ask::Surface { p, q } => numbers_answer(self.lent_surface(p, q)),
            Ask::View { p, q } => bits_answer(self.lent_view(p, q)),
            Ask::Write { .. } => bytes_answer(self.lent_write()),
            Ask::Refine { k, scratch_len } => list_answer(self.lent_refine(k, scratch_len)),
            Ask::RefinedPoint {
                k,
                p,
                q,
                scratch_len,
                point_len,
            } => {
                let room = Room::new(self.out_len, scratch_len);
                refined_answer(self.lent_refined_point(k, (p, q), room, point_len))
            }
            Ask::SeamPoints(seam) => sides_answer(self.lent_seam_points(&seam)),
            Ask::Split { details_len } => split_answer(self.lent_split(details_len)),
            Ask::Merge => list_answer(self.lent_merge()),
            Ask::Clean { t } => list_answer(self.lent_clean(t)),
            Ask::FromPoints => list_answer(self.lent_from_points()),
            Ask::Check => panic!("no outline"),
        }
    }

    fn lent_vertex(&self, i: usize, j: usize) -> Answer {
        let answer = lent::vertex(&self.net, self.w, self.h, i, j);
        if let Ok(vertex) = answer {
            let start = RECORD * (j * self.w + i);
            let part = &self.net[start..start + RECORD];
            assert!(ptr::eq(vertex, part), "another part of the net");
        }
        vertex_answer(number(&answer))
    }

    fn lent_bezier(&self, i: usize, j: usize, down: u32) -> Result<[i32; BEZIER_NUMBERS], u32> {
        assert!(down <= 1, "up or down");
        let mut out = Output::new(self.out_len);
        let (w, h) = (self.w, self.h);
        let answer = lent::bezier_net(&self.net, w, h, i, j, down == 1, out.slice());
        out.result(number(&answer))
    }

    fn lent_surface(&self, p: usize, q: usize) -> Result<[i32; POINT_NUMBERS], u32> {
        let mut out = Output::new(self.out_len);
        let answer = lent::surface_point(&self.net, self.w, self.h, p, q, out.slice());
        out.result(number(&answer))
    }

    fn lent_view(&self, p: usize, q: usize) -> Result<[u64; POINT_NUMBERS], u32> {
        let mut out = Output::<f64>::new(self.out_len);
        let answer = lent::view_point(&self.net, self.w, self.h, p, q, out.slice());
        let point = out.result(number(&answer))?;
        Ok(point.map(f64::to_bits))
    }

    fn lent_write(&self) -> Result<Vec<u8>, u32> {
        let mut out = Output::<u8>::new(self.out_len);
        let answer = lent::write(&self.net, self.w, self.h, out.slice());
        let bytes = out.front(number(&answer), answer.unwrap_or(0))?;
        Ok(bytes.to_vec())
    }

    fn lent_refine(&self, k: usize, scratch_len: usize) -> Result<Vec<i32>, u32> {
        let mut room = Refining::new(Room::new(self.out_len, scratch_len));
        let (out, scratch) = (room.out.slice(), room.scratch.slice());
        let answer = lent::refine(&self.net, self.w, self.h, k, out, scratch);
        room.result(number(&answer), (self.w, self.h), k)
    }

    fn lent_refined_point(
        &self,
        k: usize,
        (p, q): (usize, usize),
        room: Room,
        point_len: usize,
    ) -> Result<RefinedPoint, u32> {
        let mut room = Refining::new(room);
        let mut point = Output::new(point_len);
        let (out, scratch) = (room.out.slice(), room.scratch.slice());
        let (w, h, to) = (self.w, self.h, point.slice());
        let answer = lent::refined_point(&self.net, w, h, k, p, q, out, scratch, to);
        let point = point.result(number(&answer));
        Ok((room.result(number(&answer), (w, h), k)?, point?))
    }

    fn lent_split(&self, details_len: usize) -> Result<Split, u32> {
        let mut coarse = Output::<i32>::new(self.out_len);
        let mut details = Output::<i32>::new(details_len);
        let (w, h) = (self.w, self.h);
        let answer = lent::split(&self.net, w, h, coarse.slice(), details.slice());
        let refusal = number(&answer);
        // Both are checked before a refusal is handed back.
        let coarse = coarse.front(refusal, count(multiresolution::coarse_len((w, h))));
        let details = details.front(refusal, count(multiresolution::details_len((w, h))));
        Ok(Split {
            coarse: coarse?.to_vec(),
            details: details?.to_vec(),
        })
    }

    fn lent_merge(&self) -> Result<Vec<i32>, u32> {
        let mut out = Output::<i32>::new(self.out_len);
        let (w, h) = (self.w, self.h);
        let answer = lent::merge(&self.net, &self.details, w, h, out.slice());
        let len = count(refinement::refined_len((w, h), 1));
        Ok(out.front(number(&answer), len)?.to_vec())
    }

    fn lent_clean(&self, t: u32) -> Result<Vec<i32>, u32> {
        let mut details = Output::holding(&self.net);
        let answer = lent::clean(details.slice(), self.w, self.h, t);
        let len = count(multiresolution::details_len((self.w, self.h)));
        Ok(details.front(number(&answer), len)?.to_vec())
    }

    fn lent_from_points(&self) -> Result<Vec<i32>, u32> {
        let mut out = Output::<i32>::new(self.out_len);
        let answer = lent::from_points(&self.net, self.w, self.h, out.slice());
        let len = count(hermite::net_len((self.w, self.h)));
        Ok(out.front(number(&answer), len)?.to_vec())
    }

    /// The answer of a net that is made of the numbers; of a split, where details are merged; of
    /// given points the net itself.
    pub fn of_net(&self) -> Answer {
        let answer = match self.ask {
            Ask::FromPoints => self.through_points(),
            _ => self.asked_of_numbers(),
        };
        answer.unwrap_or_else(|refusal| Answer::Refused(refusal.number()))
    }

    fn through_points(&self) -> Result<Answer, Refusal> {
        let net = Net::from_points(self.w, self.h, &self.net)?;
        Ok(Answer::Numbers(self.refined_by(0, net)))
    }

    fn asked_of_numbers(&self) -> Result<Answer, Refusal> {
        let net = Net::new(self.w, self.h, &self.net)?;
        match &self.outline {
            Some(outline) => self.asked_of_door(net, outline),
            None => self.asked_of(net),
        }
    }

    fn asked_of(&self, net: Net) -> Result<Answer, Refusal> {
        Ok(match self.ask {
            Ask::Vertex { i, j } => net.vertex(i, j).map(|_| Answer::Accepted)?,
            Ask::Bezier { i, j, down } => numbers_answer(Ok(net.bezier(i, j, down == 1)?)),
            Ask::Surface { p, q } => numbers_answer(Ok(net.point(p, q)?)),
            Ask::View { p, q } => bits_answer(Ok(net.view_point(p, q)?.map(f64::to_bits))),
            Ask::Write { .. } => Answer::Bytes(net.to_file()?),
            Ask::Refine { k, .. } => Answer::Numbers(self.refined_by(k, net.refine(k)?)),
            Ask::RefinedPoint { k, p, q, .. } => {
                let (refined, point) = net.refined_point(k, p, q)?;
                Answer::Refined((self.refined_by(k, refined), point))
            }
            Ask::SeamPoints(seam) => seam::points_of(&net, &seam)?,
            Ask::Split { .. } => Answer::Split(self.parts(&net.split()?)),
            Ask::Merge => {
                let split = ups::Split::new(net, &self.details)?;
                Answer::Numbers(self.refined_by(1, split.merge()?))
            }
            Ask::Clean { .. } | Ask::FromPoints | Ask::Check => {
                panic!("no call of a net: {self:?}")
            }
        })
    }

    /// The numbers of a net that has the size after k steps.
    fn refined_by(&self, k: usize, net: Net) -> Vec<i32> {
        let size = (net.width(), net.height());
        assert_eq!(refinement::refined_size((self.w, self.h), k), Some(size));
        net.into_numbers()
    }

    /// Both parts of a split of the net.
    fn parts(&self, split: &ups::Split) -> Split {
        let coarse = split.coarse();
        let size = (coarse.width(), coarse.height());
        assert_eq!(multiresolution::coarse_size((self.w, self.h)), size);
        Split {
            coarse: coarse.numbers().to_vec(),
            details: split.details().to_vec(),
        }
    }

    /// The oracle's answer where a net is made first, but of given points, and the crate lends what
    /// the call needs: the first fault of the net, and then of the call.
    pub fn of_oracle_net(&self) -> Answer {
        if self.ask == Ask::FromPoints {
            return self.with_room().of_oracle();
        }
        let (size, room) = ((self.w, self.h), usize::MAX);
        let made = refinement::refine_faults(&self.net, size, 0, room, room);
        match (oracle::refusal(&made), &self.outline) {
            (0, None) => seam::points_alone(self.with_room().of_oracle()),
            (0, Some(outline)) => self.of_oracle_door(outline),
            (number, _) => Answer::Refused(number),
        }
    }

    fn with_room(&self) -> Call {
        let size = (self.w, self.h);
        let ask = match self.ask {
            Ask::Refine { k, .. } => Ask::refine(size, k),
            Ask::RefinedPoint { k, p, q, .. } => Ask::refined_point(size, k, (p, q)),
            Ask::SeamPoints(seam) => Ask::seam_points(size, seam.places),
            Ask::Split { .. } => Ask::split(size),
            ask => ask,
        };
        let details = self.details.clone();
        Call {
            details,
            ..Call::new(&self.net, size, ask)
        }
    }
}

impl Reading {
    /// The answer of the function on lent slices. The crate itself lends the slice for the size.
    pub fn of_lent(&self) -> Result<FileNet, u32> {
        let mut net = Output::<i32>::new(self.net_len);
        let answer = lent::read(&self.file, net.slice());
        let size = answer.unwrap_or((0, 0));
        let numbers = net.front(number(&answer), record::numbers(size))?.to_vec();
        Ok(FileNet { size, numbers })
    }
}
