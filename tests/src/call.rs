//! A call described as data, so that faults can be put into it one by one and the library and
//! the oracle get the same question. `outlined` has the calls with an outline, `seam` the points of
//! a seam.

mod outlined;
mod seam;

use crate::hermite;
use crate::kernel::{self, LentDetails, LentFile, LentNet, RefinedDoor, RefinedPoint, Room};
use crate::multiresolution::{self, Split};
use crate::netfile::{self, FileNet};
use crate::nets::{self, Numbers};
use crate::oracle::{self, Faults, POINT_NUMBERS};
use crate::random::Random;
use crate::refinement;
use crate::seam::{RefinedPlace, Seam, Sides, SEAM_NUMBERS};
pub use outlined::{bezier_asks, outlined_asks, Outlined};
pub(crate) use seam::sides_answer;
use std::fmt;

#[derive(Clone, Copy, Debug, PartialEq, Eq)]
pub enum Ask {
    Vertex {
        i: usize,
        j: usize,
    },
    Bezier {
        i: usize,
        j: usize,
        down: u32,
    },
    Surface {
        p: usize,
        q: usize,
    },
    View {
        p: usize,
        q: usize,
    },
    Write {
        written_len: usize,
    },
    Refine {
        k: usize,
        scratch_len: usize,
    },
    RefinedPoint {
        k: usize,
        p: usize,
        q: usize,
        scratch_len: usize,
        point_len: usize,
    },
    SeamPoints(Seam),
    Split {
        details_len: usize,
    },
    Merge,
    Clean {
        t: u32,
    },
    FromPoints,
    /// Of an outline alone.
    Check,
}

impl Ask {
    /// With the scratch that k steps need, up to `MOST`.
    pub fn refine(size: (usize, usize), k: usize) -> Self {
        let scratch_len = lent_len(refinement::scratch_len(size, k));
        Ask::Refine { k, scratch_len }
    }

    /// With the scratch that k steps need, up to `MOST`.
    pub fn refined_point(size: (usize, usize), k: usize, (p, q): (usize, usize)) -> Self {
        Ask::RefinedPoint {
            k,
            p,
            q,
            scratch_len: lent_len(refinement::scratch_len(size, k)),
            point_len: POINT_NUMBERS,
        }
    }

    /// With room for the details, up to `MOST`.
    pub fn split(size: (usize, usize)) -> Self {
        let details_len = lent_len(multiresolution::details_len(size));
        Ask::Split { details_len }
    }
}

/// Each call that takes a net of any size; those that name a vertex, a triangle or a place on
/// the first up triangle.
pub const ASKS: [Ask; 8] = [
    Ask::Vertex { i: 0, j: 0 },
    Ask::Bezier {
        i: 0,
        j: 0,
        down: 0,
    },
    Ask::Surface { p: 300, q: 200 },
    Ask::View { p: 300, q: 200 },
    Ask::Write { written_len: 1 },
    Ask::Refine {
        k: 0,
        scratch_len: 0,
    },
    Ask::RefinedPoint {
        k: 0,
        p: 300,
        q: 200,
        scratch_len: 0,
        point_len: POINT_NUMBERS,
    },
    Ask::SeamPoints(Seam {
        places: [RefinedPlace {
            k: 0,
            place: (300, 200),
        }; 2],
        scratch_lens: [0; 2],
        points_len: SEAM_NUMBERS,
    }),
];

/// The most bytes or numbers that `Call::new` lends, since sizes may be far too great. A file of
/// 1,026 by 4 has fewer.
const MOST: usize = 1 << 18;

fn lent_len(needed: Option<usize>) -> usize {
    needed.map_or(0, |len| len.min(MOST))
}

#[derive(Clone)]
pub struct Call {
    /// For merge the coarse net, for clean the details, for a net through given points these.
    pub net: Vec<i32>,
    pub w: usize,
    pub h: usize,
    pub ask: Ask,
    /// For split the length of the output for the coarse net, for clean unused.
    pub out_len: usize,
    /// For a seam the length of the output for the second refined net, else 0.
    pub out2_len: usize,
    /// Empty but for merge.
    pub details: Vec<i32>,
    /// For checking, and where the call is the one with an outline.
    pub outline: Option<Outlined>,
}

#[derive(Clone, Debug, PartialEq, Eq)]
pub enum Answer {
    Refused(u32),
    Accepted,
    Numbers(Vec<i32>),
    Bytes(Vec<u8>),
    DoubleBits(Vec<u64>),
    Refined(RefinedPoint),
    Split(Split),
    Door(RefinedDoor),
    Sides(Sides),
}

impl Answer {
    /// 0 for none.
    pub fn refusal(&self) -> u32 {
        match self {
            Answer::Refused(number) => *number,
            _ => 0,
        }
    }

    /// The answer of a call that writes numbers.
    pub fn numbers(self) -> Result<Vec<i32>, u32> {
        match self {
            Answer::Numbers(numbers) => Ok(numbers),
            Answer::Refused(number) => Err(number),
            other => panic!("no numbers: {other:?}"),
        }
    }

    /// The answer of split.
    pub fn split(self) -> Result<Split, u32> {
        match self {
            Answer::Split(split) => Ok(split),
            Answer::Refused(number) => Err(number),
            other => panic!("no split: {other:?}"),
        }
    }
}

// The net itself would be too long in a message.
impl fmt::Debug for Call {
    fn fmt(&self, to: &mut fmt::Formatter) -> fmt::Result {
        let (len, w, h) = (self.net.len(), self.w, self.h);
        let (ask, out_len, details) = (self.ask, self.out_len, self.details.len());
        write!(to, "{ask:?} on {w} by {h}, {len} numbers, output {out_len}")?;
        write!(to, ", {details} details")?;
        match &self.outline {
            Some(outline) => write!(to, ", {outline:?}"),
            None => Ok(()),
        }
    }
}

impl Call {
    /// A call on the whole net with an output as long as the result, up to `MOST`. What is
    /// merged are details of zero.
    pub fn new(net: &[i32], (w, h): (usize, usize), ask: Ask) -> Self {
        let out_len = match ask {
            Ask::Vertex { .. } => 0,
            Ask::Bezier { .. } => oracle::BEZIER_NUMBERS,
            Ask::Surface { .. } | Ask::View { .. } => POINT_NUMBERS,
            Ask::Write { .. } => lent_len(netfile::file_len(w, h)),
            Ask::Refine { k, .. } | Ask::RefinedPoint { k, .. } => {
                lent_len(refinement::refined_len((w, h), k))
            }
            Ask::SeamPoints(seam) => lent_len(refinement::refined_len((w, h), seam.places[0].k)),
            Ask::Split { .. } => lent_len(multiresolution::coarse_len((w, h))),
            Ask::Merge => lent_len(refinement::refined_len((w, h), 1)),
            Ask::FromPoints => lent_len(hermite::net_len((w, h))),
            Ask::Clean { .. } | Ask::Check => 0,
        };
        let details_len = match ask {
            Ask::Merge => lent_len(multiresolution::merged_details_len((w, h))),
            _ => 0,
        };
        Call {
            net: net.to_vec(),
            w,
            h,
            ask,
            out_len,
            out2_len: Call::second_len((w, h), ask),
            details: vec![0; details_len],
            outline: None,
        }
    }

    /// Merges these details with the whole coarse net.
    pub fn merge(coarse: &[i32], details: &[i32], size: (usize, usize)) -> Self {
        let details = details.to_vec();
        Call {
            details,
            ..Call::new(coarse, size, Ask::Merge)
        }
    }

    /// Calls of split, merge and clean that are accepted, on small numbers; the size is the
    /// coarse net's.
    pub fn multiresolution(random: &mut Random, size: (usize, usize)) -> [Self; 3] {
        let fine = refinement::refined_size(size, 1).expect("a size");
        let net = nets::random_net(random, fine, Numbers::Small);
        let coarse = nets::random_net(random, size, Numbers::Small);
        let details = nets::random_details(random, fine, 50);
        [
            Call::new(&net, fine, Ask::split(fine)),
            Call::merge(&coarse, &details, size),
            Call::new(&details, fine, Ask::Clean { t: 20 }),
        ]
    }

    /// The call's conditions of refusal in their order.
    pub fn faults(&self) -> Faults {
        if let Some(outline) = &self.outline {
            return self.outlined_faults(outline);
        }
        let (net, size) = (&self.net, (self.w, self.h));
        match self.ask {
            Ask::Vertex { i, j } => oracle::vertex_faults(net, self.w, self.h, i, j),
            Ask::Bezier { i, j, down } => {
                oracle::bezier_faults(net, size, (i, j), down, self.out_len)
            }
            Ask::Surface { p, q } | Ask::View { p, q } => {
                oracle::point_faults(net, size, (p, q), self.out_len)
            }
            Ask::Write { written_len } => {
                netfile::write_faults(net, size, self.out_len, written_len)
            }
            Ask::Refine { k, scratch_len } => {
                refinement::refine_faults(net, size, k, self.out_len, scratch_len)
            }
            Ask::RefinedPoint {
                k,
                p,
                q,
                scratch_len,
                point_len,
            } => {
                let out = self.out_len;
                refinement::refined_point_faults(net, size, k, (p, q), out, scratch_len, point_len)
            }
            Ask::SeamPoints(seam) => self.seam_faults(&seam),
            Ask::Split { details_len } => {
                multiresolution::split_faults(net, size, self.out_len, details_len)
            }
            Ask::Merge => multiresolution::merge_faults(net, &self.details, size, self.out_len),
            Ask::Clean { t } => multiresolution::clean_faults(net, size, t),
            Ask::FromPoints => hermite::from_points_faults(net, size, self.out_len),
            Ask::Check => panic!("no outline"),
        }
    }

    pub fn of_oracle(&self) -> Answer {
        if let Some(outline) = &self.outline {
            return self.outlined_of_oracle(outline);
        }
        let (net, size) = (&self.net, (self.w, self.h));
        match self.ask {
            Ask::Vertex { .. } => vertex_answer(oracle::refusal(&self.faults())),
            Ask::Bezier { i, j, down } => {
                numbers_answer(oracle::bezier_net(net, size, (i, j), down, self.out_len))
            }
            Ask::Surface { p, q } => {
                numbers_answer(oracle::surface_point(net, size, (p, q), self.out_len))
            }
            Ask::View { p, q } => {
                let point = oracle::surface_point(net, size, (p, q), self.out_len);
                bits_answer(point.map(oracle::view_bits))
            }
            Ask::Write { written_len } => {
                bytes_answer(netfile::write(net, size, self.out_len, written_len))
            }
            Ask::Refine { k, .. } => list_answer(self.refined(k)),
            Ask::RefinedPoint { k, p, q, .. } => refined_answer(self.refined(k).map(|refined| {
                let size = refinement::refined_size(size, k).expect("accepted");
                let point = refinement::point_of(&refined, size, (p, q));
                (refined, point)
            })),
            Ask::SeamPoints(seam) => self.seam_of_oracle(&seam),
            Ask::Split { details_len } => {
                split_answer(multiresolution::split(net, size, self.out_len, details_len))
            }
            Ask::Merge => {
                let (details, out) = (&self.details, self.out_len);
                list_answer(multiresolution::merge(net, details, size, out))
            }
            Ask::Clean { t } => list_answer(multiresolution::clean(net, size, t)),
            Ask::FromPoints => list_answer(hermite::from_points(net, size, self.out_len)),
            Ask::Check => panic!("no outline"),
        }
    }

    /// The net after k steps, unless the call is refused.
    fn refined(&self, k: usize) -> Result<Vec<i32>, u32> {
        oracle::accepted(&self.faults())?;
        Ok(refinement::refined(&self.net, (self.w, self.h), k))
    }

    pub fn of_kernel(&self, net: &LentNet) -> Answer {
        if let Some(outline) = &self.outline {
            return self.outlined_of_kernel(net, outline, &outline.lent());
        }
        let size = (self.w, self.h);
        match self.ask {
            Ask::Vertex { i, j } => vertex_answer(net.vertex_refusal(self.w, self.h, i, j)),
            Ask::Bezier { i, j, down } => {
                numbers_answer(net.bezier_net(size, (i, j), down, self.out_len))
            }
            Ask::Surface { p, q } => numbers_answer(net.surface_point(size, (p, q), self.out_len)),
            Ask::View { p, q } => bits_answer(net.view_point(size, (p, q), self.out_len)),
            Ask::Write { written_len } => bytes_answer(net.write(size, self.out_len, written_len)),
            Ask::Refine { k, scratch_len } => {
                let room = Room::new(self.out_len, scratch_len);
                list_answer(net.refine(size, k, room))
            }
            Ask::RefinedPoint {
                k,
                p,
                q,
                scratch_len,
                point_len,
            } => {
                let room = Room::new(self.out_len, scratch_len);
                refined_answer(net.refined_point(size, k, (p, q), room, point_len))
            }
            Ask::SeamPoints(seam) => self.seam_of_kernel(net, &seam),
            Ask::Split { details_len } => split_answer(net.split(size, self.out_len, details_len)),
            Ask::Merge => {
                let details = LentDetails::new(&self.details);
                list_answer(net.merge(&details, size, self.out_len))
            }
            Ask::Clean { t } => list_answer(kernel::clean(net.numbers(), size, t)),
            Ask::FromPoints => list_answer(net.from_points(size, self.out_len)),
            Ask::Check => panic!("no outline"),
        }
    }

    /// The library's answer, after comparison with the oracle's.
    pub fn check(&self) -> Answer {
        let answer = self.of_kernel(&LentNet::new(&self.net));
        assert_eq!(answer, self.of_oracle(), "{self:?}");
        answer
    }

    /// Checks the answer and expects this refusal, 0 for none.
    pub fn expect(&self, refusal: u32) {
        assert_eq!(self.check().refusal(), refusal, "{self:?}");
    }
}

pub(crate) fn vertex_answer(refusal: u32) -> Answer {
    match refusal {
        0 => Answer::Accepted,
        number => Answer::Refused(number),
    }
}

pub(crate) fn numbers_answer<const N: usize>(answer: Result<[i32; N], u32>) -> Answer {
    list_answer(answer.map(|numbers| numbers.to_vec()))
}

pub(crate) fn list_answer(answer: Result<Vec<i32>, u32>) -> Answer {
    match answer {
        Ok(numbers) => Answer::Numbers(numbers),
        Err(number) => Answer::Refused(number),
    }
}

pub(crate) fn refined_answer(answer: Result<RefinedPoint, u32>) -> Answer {
    match answer {
        Ok(refined) => Answer::Refined(refined),
        Err(number) => Answer::Refused(number),
    }
}

pub(crate) fn split_answer(answer: Result<Split, u32>) -> Answer {
    answer.map_or_else(Answer::Refused, Answer::Split)
}

pub(crate) fn door_answer(answer: Result<RefinedDoor, u32>) -> Answer {
    answer.map_or_else(Answer::Refused, Answer::Door)
}

pub(crate) fn bits_answer<const N: usize>(answer: Result<[u64; N], u32>) -> Answer {
    match answer {
        Ok(bits) => Answer::DoubleBits(bits.to_vec()),
        Err(number) => Answer::Refused(number),
    }
}

pub(crate) fn bytes_answer(answer: Result<Vec<u8>, u32>) -> Answer {
    match answer {
        Ok(bytes) => Answer::Bytes(bytes),
        Err(number) => Answer::Refused(number),
    }
}

/// A file to read, with the lengths of the slices for its net and its size.
#[derive(Clone)]
pub struct Reading {
    pub file: Vec<u8>,
    pub net_len: usize,
    pub size_len: usize,
}

impl fmt::Debug for Reading {
    fn fmt(&self, to: &mut fmt::Formatter) -> fmt::Result {
        let (net_len, size_len) = (self.net_len, self.size_len);
        write!(
            to,
            "net of {net_len}, size of {size_len}, {} bytes",
            self.file.len()
        )?;
        // The start of the file is enough in a message.
        for word in self.file.chunks(4).take(48) {
            write!(to, " ")?;
            for byte in word {
                write!(to, "{byte:02X}")?;
            }
        }
        Ok(())
    }
}

impl Reading {
    /// Into a slice of `net_len` numbers and one of two.
    pub fn new(file: &[u8], net_len: usize) -> Self {
        Reading {
            file: file.to_vec(),
            net_len,
            size_len: 2,
        }
    }

    pub fn of_oracle(&self) -> Result<FileNet, u32> {
        netfile::read(&self.file, self.net_len, self.size_len)
    }

    pub fn of_kernel(&self, file: &LentFile) -> Result<FileNet, u32> {
        file.read(self.net_len, self.size_len)
    }

    /// The library's answer, after comparison with the oracle's.
    pub fn check(&self) -> Result<FileNet, u32> {
        let answer = self.of_kernel(&LentFile::new(&self.file));
        assert_eq!(answer, self.of_oracle(), "{self:?}");
        answer
    }

    /// Checks the answer and expects this refusal, 0 for none.
    pub fn expect(&self, refusal: u32) {
        let number = self.check().err().unwrap_or(0);
        assert_eq!(number, refusal, "{self:?}");
    }
}
