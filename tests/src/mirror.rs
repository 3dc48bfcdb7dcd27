//! Mirror images: nets, calls and answers with some of the coordinates negated.

use crate::call::{Answer, Ask, Call};
use crate::kernel::RefinedDoor;
use crate::multiresolution::Split;
use crate::netfile::{self, FileNet};
use crate::oracle::{self, POINT_NUMBERS};
use crate::record::{DETAIL_RECORD, GIVEN_RECORD, POINT_RECORD};
use crate::seam::Sides;

/// Which of x, y, z are negated.
#[derive(Clone, Copy, Debug)]
pub struct Mirror(pub [bool; 3]);

/// Each set of coordinates but the empty one.
pub fn mirrors() -> [Mirror; 7] {
    [1, 2, 3, 4, 5, 6, 7].map(|set| Mirror([0, 1, 2].map(|n| set >> n & 1 == 1)))
}

impl Mirror {
    /// Of numbers that stand in records of this length, each beginning with x, y, z. The least
    /// number has no negative in 32 bits: its image is the greatest, which no range has either.
    fn records(self, numbers: &[i32], len: usize) -> Vec<i32> {
        let mut image = numbers.to_vec();
        for record in image.chunks_mut(len) {
            for (x, negated) in record.iter_mut().zip(self.0) {
                if negated {
                    *x = x.saturating_neg();
                }
            }
        }
        image
    }

    pub fn net(self, numbers: &[i32]) -> Vec<i32> {
        self.records(numbers, POINT_RECORD)
    }

    pub fn details(self, details: &[i32]) -> Vec<i32> {
        self.records(details, DETAIL_RECORD / 3)
    }

    fn given(self, given: &[i32]) -> Vec<i32> {
        self.records(given, GIVEN_RECORD / 3)
    }

    pub fn point(self, point: [i32; POINT_NUMBERS]) -> [i32; POINT_NUMBERS] {
        let image = self.records(&point, POINT_NUMBERS);
        [image[0], image[1], image[2]]
    }

    /// The doubles of the negated whole numbers, as bits: that of 0 is +0.0.
    fn view(self, bits: &[u64]) -> Vec<u64> {
        let whole = |n: usize| (f64::from_bits(bits[n]) * 1024.0) as i32;
        oracle::view_bits(self.point([0, 1, 2].map(whole))).to_vec()
    }

    fn file(self, file: &[u8]) -> Vec<u8> {
        let read = netfile::read(file, usize::MAX, 2);
        let FileNet { size, numbers } = read.expect("a file");
        netfile::file(&self.net(&numbers), size)
    }

    /// What a call with this question writes.
    fn written(self, ask: Ask, numbers: &[i32]) -> Vec<i32> {
        match ask {
            Ask::Surface { .. } | Ask::Bezier { .. } => self.records(numbers, POINT_NUMBERS),
            Ask::Refine { .. } | Ask::Merge | Ask::FromPoints => self.net(numbers),
            Ask::Clean { .. } => self.details(numbers),
            _ => panic!("no numbers: {ask:?}"),
        }
    }

    /// The same question of the image.
    pub fn call(self, call: &Call) -> Call {
        let net = match call.ask {
            Ask::Clean { .. } => self.details(&call.net),
            Ask::FromPoints => self.given(&call.net),
            _ => self.net(&call.net),
        };
        let details = self.details(&call.details);
        Call {
            net,
            details,
            ..call.clone()
        }
    }

    /// The answer that is due to the image of a call, where the call has this one: a refusal is
    /// the same, and so is an outline.
    pub fn answer(self, ask: Ask, answer: &Answer) -> Answer {
        match answer {
            Answer::Refused(_) | Answer::Accepted => answer.clone(),
            Answer::Numbers(numbers) => Answer::Numbers(self.written(ask, numbers)),
            Answer::Bytes(file) => Answer::Bytes(self.file(file)),
            Answer::DoubleBits(bits) => Answer::DoubleBits(self.view(bits)),
            Answer::Refined((net, point)) => Answer::Refined((self.net(net), self.point(*point))),
            Answer::Split(Split { coarse, details }) => Answer::Split(Split {
                coarse: self.net(coarse),
                details: self.details(details),
            }),
            Answer::Door(door) => Answer::Door(RefinedDoor {
                numbers: self.net(&door.numbers),
                outline: door.outline.clone(),
                point: door.point.map(|point| self.point(point)),
            }),
            Answer::Sides(Sides { nets, points }) => Answer::Sides(Sides {
                nets: nets.each_ref().map(|net| self.net(net)),
                points: points.map(|point| self.point(point)),
            }),
        }
    }
}
