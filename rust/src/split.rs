//! A net in two parts: a coarse net and details.

use crate::lent;
use crate::net::room_after;
use crate::size::{detail_numbers, side_after};
use crate::{Net, Refusal};

/// A coarse net together with details, [`DETAIL_RECORD`](crate::DETAIL_RECORD) for each vertex of
/// one refinement of it, all in range.
///
/// ```
/// let mut numbers = [0; ups::net_numbers(3, 3)];
/// numbers[ups::RECORD] = 5; // x of c1 of vertex (1, 0)
/// let net = ups::Net::new(3, 3, &numbers)?;
/// let mut split = net.split()?;
/// assert_eq!(split.details().iter().sum::<i32>(), 5);
/// split.clean(6)?;
/// assert_eq!(split.merge()?.numbers(), [0; ups::net_numbers(3, 3)]);
/// # Ok::<(), ups::Refusal>(())
/// ```
#[derive(Clone, Debug, PartialEq, Eq, Hash)]
pub struct Split {
    pub(crate) coarse: Net,
    pub(crate) details: Vec<i32>,
}

impl Split {
    /// A coarse net with a copy of its details, which stand at the front of `details`.
    ///
    /// # Errors
    ///
    /// [`DEPTH`](Refusal::DEPTH) where a side of one refinement of the coarse net is above 1,025;
    /// [`SHORT`](Refusal::SHORT) and [`RANGE`](Refusal::RANGE) of the details.
    pub fn new(coarse: Net, details: &[i32]) -> Result<Split, Refusal> {
        let (w, h) = fine_size(&coarse);
        let count = detail_numbers(w, h);
        if count == 0 {
            return Err(Refusal::DEPTH);
        }
        let details = details.get(..count).unwrap_or(details).to_vec();
        let mut split = Split { coarse, details };
        // No size is below 0, so this changes nothing, and the library finds the faults.
        split.clean(0)?;
        Ok(split)
    }

    /// The coarse net.
    pub fn coarse(&self) -> &Net {
        &self.coarse
    }

    /// The details, row by row, [`DETAIL_RECORD`](crate::DETAIL_RECORD) a vertex of the refined
    /// coarse net.
    pub fn details(&self) -> &[i32] {
        &self.details
    }

    /// Sets each detail whose size is below the threshold `t` to 0. Where a net was split and
    /// cleaned once, with `t` above 0, no number of the merged net is `t` or more from the net's.
    ///
    /// # Errors
    ///
    /// [`THRESHOLD`](Refusal::THRESHOLD).
    pub fn clean(&mut self, t: u32) -> Result<(), Refusal> {
        let (w, h) = fine_size(&self.coarse);
        lent::clean(&mut self.details, w, h, t)
    }

    /// The net that the coarse net and the details make. Of a net that was split, and not cleaned,
    /// it is that net.
    ///
    /// # Errors
    ///
    /// [`RESULT`](Refusal::RESULT).
    pub fn merge(&self) -> Result<Net, Refusal> {
        let (w, h) = (self.coarse.width, self.coarse.height);
        let mut net = room_after(w, h, 1);
        let out = &mut net.numbers;
        lent::merge(&self.coarse.numbers, &self.details, w, h, out)?;
        Ok(net)
    }
}

/// The size of one refinement of the coarse net; a side is 0 where it would be above 1,025.
fn fine_size(coarse: &Net) -> (usize, usize) {
    (side_after(coarse.width, 1), side_after(coarse.height, 1))
}
