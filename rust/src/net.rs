//! A net that owns its numbers.

use crate::lent;
use crate::size::{
    coarse_numbers, coarse_side, detail_numbers, file_bytes, file_numbers, refined_numbers,
    scratch_numbers, side_after, BEZIER, POINT,
};
use crate::{Refusal, Split};

/// A net of an accepted size that owns its numbers, all of them in range.
///
/// ```
/// use ups::Net;
///
/// let mut numbers = [0; ups::net_numbers(3, 3)];
/// numbers[2] = 120;
/// let net = Net::new(3, 3, &numbers)?;
/// assert_eq!(net.point(512, 0)?, [0, 0, 40]);
/// assert_eq!(Net::from_file(&net.to_file()?)?, net);
/// assert_eq!(net.split()?.merge()?, net);
/// # Ok::<(), ups::Refusal>(())
/// ```
#[derive(Clone, Debug, PartialEq, Eq, Hash)]
pub struct Net {
    pub(crate) width: usize,
    pub(crate) height: usize,
    pub(crate) numbers: Vec<i32>,
}

impl Net {
    /// A net of w by h with a copy of its numbers, which stand at the front of `numbers`.
    ///
    /// # Errors
    ///
    /// [`SIZE`](Refusal::SIZE), [`SHORT`](Refusal::SHORT), [`RANGE`](Refusal::RANGE).
    ///
    /// ```
    /// use ups::{net_numbers, Net, Refusal};
    ///
    /// let mut numbers = vec![0; net_numbers(2, 2)];
    /// assert_eq!(Net::new(2, 1, &numbers), Err(Refusal::SIZE));
    /// assert_eq!(Net::new(2, 3, &numbers), Err(Refusal::SHORT));
    /// numbers[2] = 16_777_217;
    /// assert_eq!(Net::new(2, 2, &numbers), Err(Refusal::RANGE));
    /// ```
    pub fn new(w: usize, h: usize, numbers: &[i32]) -> Result<Net, Refusal> {
        // Refining by no steps copies, and the library finds the faults.
        refined(numbers, w, h, 0)
    }

    /// The net of w by h through given points, which stand at the front of `given`: a point p and
    /// two vectors t1 and t2 of each vertex, row by row, as [`lent::from_points`] takes them.
    ///
    /// # Errors
    ///
    /// [`SIZE`](Refusal::SIZE), [`SHORT`](Refusal::SHORT),
    /// [`CONTROL_RANGE`](Refusal::CONTROL_RANGE).
    ///
    /// ```
    /// use ups::{Net, Refusal};
    ///
    /// let mut given = [10, 20, 30, 0, 0, 3, 0, 0, -1].repeat(4);
    /// let net = Net::from_points(2, 2, &given)?;
    /// assert_eq!(net.vertex(1, 1)?, [10, 20, 33, 10, 20, 29, 10, 20, 28]);
    /// assert_eq!(net.point(1024, 1024)?, [10, 20, 30]);
    /// assert_eq!(net.refine(1)?.point(2048, 2048)?, [10, 20, 30]);
    /// given[2] = 16_777_216; // and 3 more in c1
    /// assert_eq!(Net::from_points(2, 2, &given), Err(Refusal::CONTROL_RANGE));
    /// # Ok::<(), ups::Refusal>(())
    /// ```
    pub fn from_points(w: usize, h: usize, given: &[i32]) -> Result<Net, Refusal> {
        let mut net = room_after(w, h, 0);
        lent::from_points(given, w, h, &mut net.numbers)?;
        Ok(net)
    }

    /// The net of a file. Memory is taken for the size that the file states.
    ///
    /// # Errors
    ///
    /// Those of [`lent::read`] but `ROOM`.
    pub fn from_file(file: &[u8]) -> Result<Net, Refusal> {
        let mut numbers = vec![0; file_numbers(file)];
        let (width, height) = lent::read(file, &mut numbers)?;
        Ok(Net {
            width,
            height,
            numbers,
        })
    }

    /// The bytes of the net's file.
    ///
    /// # Errors
    ///
    /// None: every `Net` can be written.
    pub fn to_file(&self) -> Result<Vec<u8>, Refusal> {
        let mut file = vec![0; file_bytes(self.width, self.height)];
        lent::write(&self.numbers, self.width, self.height, &mut file)?;
        Ok(file)
    }

    /// The count of columns, 2 to 1,025.
    pub fn width(&self) -> usize {
        self.width
    }

    /// The count of rows, 2 to 1,025.
    pub fn height(&self) -> usize {
        self.height
    }

    /// The numbers, [`net_numbers`](crate::net_numbers) of them, row by row.
    pub fn numbers(&self) -> &[i32] {
        &self.numbers
    }

    /// The numbers, without a copy.
    pub fn into_numbers(self) -> Vec<i32> {
        self.numbers
    }

    /// The record of vertex (i, j).
    ///
    /// # Errors
    ///
    /// [`PLACE`](Refusal::PLACE).
    pub fn vertex(&self, i: usize, j: usize) -> Result<&[i32], Refusal> {
        lent::vertex(&self.numbers, self.width, self.height, i, j)
    }

    /// The Bézier net of the down triangle of cell (i, j) where `down`, else of the up triangle, in
    /// the order of [`lent::bezier_net`].
    ///
    /// # Errors
    ///
    /// [`PLACE`](Refusal::PLACE).
    pub fn bezier(&self, i: usize, j: usize, down: bool) -> Result<[i32; BEZIER], Refusal> {
        let mut out = [0; BEZIER];
        lent::bezier_net(&self.numbers, self.width, self.height, i, j, down, &mut out)?;
        Ok(out)
    }

    /// x, y, z of the surface point at place (p, q).
    ///
    /// # Errors
    ///
    /// [`PLACE`](Refusal::PLACE).
    pub fn point(&self, p: usize, q: usize) -> Result<[i32; POINT], Refusal> {
        let mut out = [0; POINT];
        lent::surface_point(&self.numbers, self.width, self.height, p, q, &mut out)?;
        Ok(out)
    }

    /// The surface point at place (p, q) in millimetres.
    ///
    /// # Errors
    ///
    /// [`PLACE`](Refusal::PLACE).
    pub fn view_point(&self, p: usize, q: usize) -> Result<[f64; POINT], Refusal> {
        let mut out = [0.0; POINT];
        lent::view_point(&self.numbers, self.width, self.height, p, q, &mut out)?;
        Ok(out)
    }

    /// The net after k steps of refining, 0 to 6.
    ///
    /// # Errors
    ///
    /// [`DEPTH`](Refusal::DEPTH).
    pub fn refine(&self, k: usize) -> Result<Net, Refusal> {
        refined(&self.numbers, self.width, self.height, k)
    }

    /// The net after k steps of refining, and its surface point at place (p, q) of its own grid,
    /// with the promise of [`lent::refined_point`].
    ///
    /// # Errors
    ///
    /// [`DEPTH`](Refusal::DEPTH), [`PLACE`](Refusal::PLACE).
    ///
    /// ```
    /// let net = ups::Net::new(2, 2, &[7; ups::net_numbers(2, 2)])?;
    /// let (refined, point) = net.refined_point(6, 65_536, 0)?;
    /// assert_eq!((refined.width(), point), (65, [7; 3]));
    /// # Ok::<(), ups::Refusal>(())
    /// ```
    pub fn refined_point(
        &self,
        k: usize,
        p: usize,
        q: usize,
    ) -> Result<(Net, [i32; POINT]), Refusal> {
        let (w, h) = (self.width, self.height);
        let mut net = room_after(w, h, k);
        let mut scratch = vec![0; scratch_numbers(w, h, k)];
        let (out, mut point) = (&mut net.numbers, [0; POINT]);
        lent::refined_point(&self.numbers, w, h, k, p, q, out, &mut scratch, &mut point)?;
        Ok((net, point))
    }

    /// The surface points on both sides of a seam, where the net after k steps of refining meets
    /// the net after l: at place `at` of the first and at place `at2` of the second, each (p, q)
    /// of its own grid, which have to be one place of this net. In each coordinate they differ by
    /// at most (k + l + 2)/2 units, and where k = l they are equal: the promise of
    /// [`lent::seam_points`].
    ///
    /// # Errors
    ///
    /// [`DEPTH`](Refusal::DEPTH), [`PLACE`](Refusal::PLACE).
    ///
    /// ```
    /// use ups::{Net, Refusal};
    ///
    /// let mut numbers = [0; ups::net_numbers(2, 2)];
    /// numbers[2] = 120;
    /// let net = Net::new(2, 2, &numbers)?;
    /// // A place of the left edge without a step and after 2: at most 2 apart.
    /// let [one, two] = net.seam_points(0, 2, (0, 320), (0, 1280))?;
    /// assert_eq!((one, two), ([0, 0, 45], [0, 0, 46]));
    /// let other = net.seam_points(0, 2, (0, 320), (0, 320));
    /// assert_eq!(other, Err(Refusal::PLACE));
    /// # Ok::<(), ups::Refusal>(())
    /// ```
    pub fn seam_points(
        &self,
        k: usize,
        l: usize,
        at: (usize, usize),
        at2: (usize, usize),
    ) -> Result<[[i32; POINT]; 2], Refusal> {
        let (net, w, h) = (&self.numbers, self.width, self.height);
        let [(mut out, mut by), (mut out2, mut by2)] = [k, l].map(|k| {
            let scratch = vec![0; scratch_numbers(w, h, k)];
            (vec![0; refined_numbers(w, h, k)], scratch)
        });
        let (out, by, out2, by2) = (&mut out, &mut by, &mut out2, &mut by2);
        let ((p, q), (p2, q2)) = (at, at2);
        let mut points = [[0; POINT]; 2];
        let to = points.as_flattened_mut();
        lent::seam_points(net, w, h, k, l, p, q, p2, q2, out, by, out2, by2, to)?;
        Ok(points)
    }

    /// The coarse net and the details of the net.
    ///
    /// # Errors
    ///
    /// [`EVEN`](Refusal::EVEN), [`RESULT`](Refusal::RESULT).
    pub fn split(&self) -> Result<Split, Refusal> {
        let (w, h) = (self.width, self.height);
        let mut coarse = Net {
            width: coarse_side(w),
            height: coarse_side(h),
            numbers: vec![0; coarse_numbers(w, h)],
        };
        let mut details = vec![0; detail_numbers(w, h)];
        lent::split(&self.numbers, w, h, &mut coarse.numbers, &mut details)?;
        Ok(Split { coarse, details })
    }
}

/// Room for a net of w by h after k steps; where they are refused, for no number.
pub(crate) fn room_after(w: usize, h: usize, k: usize) -> Net {
    Net {
        width: side_after(w, k),
        height: side_after(h, k),
        numbers: vec![0; refined_numbers(w, h, k)],
    }
}

/// The net of these numbers after k steps.
fn refined(numbers: &[i32], w: usize, h: usize, k: usize) -> Result<Net, Refusal> {
    let mut net = room_after(w, h, k);
    let mut scratch = vec![0; scratch_numbers(w, h, k)];
    lent::refine(numbers, w, h, k, &mut net.numbers, &mut scratch)?;
    Ok(net)
}
