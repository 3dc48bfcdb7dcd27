//! A net with an outline.

use crate::lent;
use crate::net::room_after;
use crate::size::{refined_triangles, scratch_numbers, triangles, BEZIER, POINT};
use crate::{Net, Refusal};

/// A net together with an outline whose present triangles are connected by edges.
///
/// ```
/// use ups::{Door, Net, Refusal};
///
/// let net = Net::new(3, 2, &[7; ups::net_numbers(3, 2)])?;
/// let door = Door::new(net, &[1, 1, 1, 0])?;
/// assert_eq!(door.point(1024, 1024)?, [7; 3]);
/// assert_eq!(door.point(2048, 1024), Err(Refusal::OFF_DOOR));
/// assert_eq!(door.refine(1)?.outline(), [1, 1, 1, 1, 1, 1, 1, 0, 1, 1, 1, 1, 1, 0, 0, 0]);
/// # Ok::<(), ups::Refusal>(())
/// ```
#[derive(Clone, Debug, PartialEq, Eq, Hash)]
pub struct Door {
    net: Net,
    outline: Vec<u8>,
}

impl Door {
    /// A net with a copy of its outline, which stands at the front of `outline`.
    ///
    /// # Errors
    ///
    /// [`SHORT`](Refusal::SHORT), [`OUTLINE_BYTE`](Refusal::OUTLINE_BYTE),
    /// [`NOT_CONNECTED`](Refusal::NOT_CONNECTED).
    pub fn new(net: Net, outline: &[u8]) -> Result<Door, Refusal> {
        let count = triangles(net.width, net.height);
        let outline = outline.get(..count).unwrap_or(outline).to_vec();
        lent::check_outline(&outline, net.width, net.height, &mut vec![0; count])?;
        Ok(Door { net, outline })
    }

    /// The net.
    pub fn net(&self) -> &Net {
        &self.net
    }

    /// The outline, [`triangles`] bytes, row by row and cell by cell, up before down.
    pub fn outline(&self) -> &[u8] {
        &self.outline
    }

    /// The Bézier net of a present triangle, as [`Net::bezier`] gives it.
    ///
    /// # Errors
    ///
    /// [`PLACE`](Refusal::PLACE), [`OFF_DOOR`](Refusal::OFF_DOOR).
    pub fn bezier(&self, i: usize, j: usize, down: bool) -> Result<[i32; BEZIER], Refusal> {
        let (net, w, h) = self.parts();
        let mut out = [0; BEZIER];
        lent::bezier_net_outlined(net, w, h, &self.outline, i, j, down, &mut out)?;
        Ok(out)
    }

    /// x, y, z of the surface point at place (p, q) on the door.
    ///
    /// # Errors
    ///
    /// [`PLACE`](Refusal::PLACE), [`OFF_DOOR`](Refusal::OFF_DOOR).
    pub fn point(&self, p: usize, q: usize) -> Result<[i32; POINT], Refusal> {
        let (net, w, h) = self.parts();
        let mut out = [0; POINT];
        lent::surface_point_outlined(net, w, h, &self.outline, p, q, &mut out)?;
        Ok(out)
    }

    /// The surface point at place (p, q) on the door in millimetres.
    ///
    /// # Errors
    ///
    /// [`PLACE`](Refusal::PLACE), [`OFF_DOOR`](Refusal::OFF_DOOR).
    pub fn view_point(&self, p: usize, q: usize) -> Result<[f64; POINT], Refusal> {
        let (net, w, h) = self.parts();
        let mut out = [0.0; POINT];
        lent::view_point_outlined(net, w, h, &self.outline, p, q, &mut out)?;
        Ok(out)
    }

    /// The net after k steps of refining, 0 to 6, with its outline.
    ///
    /// # Errors
    ///
    /// [`DEPTH`](Refusal::DEPTH).
    pub fn refine(&self, k: usize) -> Result<Door, Refusal> {
        let (net, w, h) = self.parts();
        let (mut door, mut scratch, mut search) = self.room_after(k);
        let (out, fine) = (&mut door.net.numbers, &mut door.outline);
        let from = &self.outline;
        lent::refine_outlined(net, w, h, k, from, out, &mut scratch, fine, &mut search)?;
        Ok(door)
    }

    /// The net after k steps of refining with its outline, and its surface point at place (p, q) of
    /// its own grid, which is on the door, with the promise of [`lent::refined_point`].
    ///
    /// # Errors
    ///
    /// [`DEPTH`](Refusal::DEPTH), [`PLACE`](Refusal::PLACE), [`OFF_DOOR`](Refusal::OFF_DOOR).
    pub fn refined_point(
        &self,
        k: usize,
        p: usize,
        q: usize,
    ) -> Result<(Door, [i32; POINT]), Refusal> {
        let (net, w, h) = self.parts();
        let (mut door, mut scratch, mut search) = self.room_after(k);
        let (out, fine, mut point) = (&mut door.net.numbers, &mut door.outline, [0; POINT]);
        let (scratch, search, to) = (&mut scratch, &mut search, &mut point);
        let from = &self.outline;
        lent::refined_point_outlined(net, w, h, k, from, p, q, out, scratch, fine, search, to)?;
        Ok((door, point))
    }

    /// The net's numbers and its size.
    fn parts(&self) -> (&[i32], usize, usize) {
        (&self.net.numbers, self.net.width, self.net.height)
    }

    /// Room for the door after k steps, a scratch and a search.
    fn room_after(&self, k: usize) -> (Door, Vec<i32>, Vec<u32>) {
        let (w, h) = (self.net.width, self.net.height);
        let door = Door {
            net: room_after(w, h, k),
            outline: vec![0; refined_triangles(w, h, k)],
        };
        let scratch = vec![0; scratch_numbers(w, h, k)];
        (door, scratch, vec![0; triangles(w, h)])
    }
}
