//! Outlines as the specification writes them: which triangles are present, whether edges connect
//! them, which places are on the door, and the outline of a refined net. Connected triangles are
//! found by a flood with a stack.

use crate::oracle::{self, Faults, Kind, Triangle, EDGE};
use crate::refinement::{self, too_short};

type Size = (usize, usize);

/// The count of triangles; none where it is no `usize`.
pub fn triangles((w, h): Size) -> Option<usize> {
    let cells = w.saturating_sub(1).checked_mul(h.saturating_sub(1))?;
    cells.checked_mul(2)
}

/// The count of triangles of the net after k steps.
pub fn fine_triangles(size: Size, k: usize) -> Option<usize> {
    triangles(refinement::refined_size(size, k)?)
}

/// The triangles in the order of their bytes: row by row and cell by cell, up before down.
pub fn all((w, h): Size) -> impl Iterator<Item = Triangle> {
    let cells = (0..h - 1).flat_map(move |j| (0..w - 1).map(move |i| (i, j)));
    cells.flat_map(|(i, j)| [Kind::Up, Kind::Down].map(|kind| Triangle::new(kind, i, j)))
}

/// The three triangles that share an edge with this one, in the net or not. On the other side of
/// the edge A, B from the corner C is the corner A + B - C, and a triangle's cell is that of its
/// least column and its least row.
pub fn neighbours(triangle: &Triangle) -> [Triangle; 3] {
    let kind = match triangle.kind {
        Kind::Up => Kind::Down,
        Kind::Down => Kind::Up,
    };
    let corners = triangle.corners();
    [0, 1, 2].map(|n| {
        let [c, a, b] = [n, (n + 1) % 3, (n + 2) % 3].map(|n| corners[n]);
        let opposite = (a.0 + b.0 - c.0, a.1 + b.1 - c.1);
        let all = [a, b, opposite];
        let i = all.map(|at| at.0).into_iter().min().expect("three corners");
        let j = all.map(|at| at.1).into_iter().min().expect("three corners");
        Triangle { kind, i, j }
    })
}

/// The bytes of an outline, as far as they are lent, for a net of this size.
#[derive(Clone, Copy)]
pub struct Door<'a> {
    pub bytes: &'a [u8],
    pub size: Size,
}

impl<'a> Door<'a> {
    pub fn new(bytes: &'a [u8], size: Size) -> Self {
        Door { bytes, size }
    }

    /// The bytes that count.
    fn counting(&self) -> &'a [u8] {
        let count = triangles(self.size).unwrap_or(usize::MAX);
        &self.bytes[..count.min(self.bytes.len())]
    }

    fn columns(&self) -> i128 {
        self.size.0 as i128 - 1
    }

    /// Where a triangle's byte is; none outside the net, or where it is not lent.
    fn position(&self, triangle: &Triangle) -> Option<usize> {
        let (i, j) = (triangle.i, triangle.j);
        let inside = (0..self.columns()).contains(&i) && (0..self.size.1 as i128 - 1).contains(&j);
        let cell = inside.then(|| j * self.columns() + i)?;
        let byte = 2 * cell + i128::from(triangle.kind == Kind::Down);
        let byte = usize::try_from(byte).ok()?;
        (byte < self.bytes.len()).then_some(byte)
    }

    /// The triangle of a byte that counts.
    pub fn triangle(&self, byte: usize) -> Triangle {
        let kind = [Kind::Up, Kind::Down][byte % 2];
        let cell = (byte / 2) as i128;
        let (i, j) = (cell % self.columns(), cell / self.columns());
        Triangle { kind, i, j }
    }

    /// Whether a triangle is one of the net and present.
    pub fn has(&self, triangle: &Triangle) -> bool {
        let position = self.position(triangle);
        position.is_some_and(|byte| self.bytes[byte] == 1)
    }

    /// Whether a triangle is present, and from each present one a walk over shared edges and
    /// present triangles leads to each other.
    pub fn connected(&self) -> bool {
        let bytes = self.counting();
        let Some(first) = bytes.iter().position(|&byte| byte == 1) else {
            return false;
        };
        let mut reached = vec![false; bytes.len()];
        reached[first] = true;
        let mut stack = vec![first];
        while let Some(byte) = stack.pop() {
            let near = neighbours(&self.triangle(byte));
            for next in near.iter().filter(|next| self.has(next)) {
                let next = self.position(next).expect("present");
                if !reached[next] {
                    reached[next] = true;
                    stack.push(next);
                }
            }
        }
        bytes.iter().zip(reached).all(|(&byte, is)| byte != 1 || is)
    }

    /// Whether some present triangle holds the place. It can only be one of the place's cell and
    /// of the cells before that.
    pub fn holds(&self, (p, q): Size, edge: i128) -> bool {
        let (p, q) = (p as i128, q as i128);
        let cells = [0, 1].map(|n| [0, 1].map(|m| (p / edge - n, q / edge - m)));
        cells.as_flattened().iter().any(|&(i, j)| {
            let both = [Kind::Up, Kind::Down].map(|kind| Triangle { kind, i, j });
            both.iter().any(|t| self.has(t) && t.holds(p, q, edge))
        })
    }

    /// The outline after k steps. A fine triangle lies in a starting triangle where its three
    /// corners do; all starting triangles are tried.
    pub fn refined(&self, k: usize) -> Vec<u8> {
        let all: Vec<Triangle> = all(self.size).collect();
        self.refined_among(k, |_| all.clone())
    }

    /// The same where the net is large: only the two triangles of the starting cell are tried.
    pub fn refined_by_cells(&self, k: usize) -> Vec<u8> {
        self.refined_among(k, |fine| {
            let (i, j) = (fine.i >> k, fine.j >> k);
            [Kind::Up, Kind::Down]
                .map(|kind| Triangle { kind, i, j })
                .to_vec()
        })
    }

    fn refined_among(&self, k: usize, tried: impl Fn(&Triangle) -> Vec<Triangle>) -> Vec<u8> {
        let size = refinement::refined_size(self.size, k).expect("a size");
        let present = |fine: Triangle| {
            let corners = fine.corners();
            let lies_in = |t: &Triangle| corners.iter().all(|&(p, q)| t.holds(p, q, 1 << k));
            tried(&fine).iter().any(|t| self.has(t) && lies_in(t))
        };
        all(size).map(|fine| u8::from(present(fine))).collect()
    }

    fn short(&self) -> bool {
        too_short(self.bytes.len(), triangles(self.size))
    }

    fn bad_byte(&self) -> bool {
        self.counting().iter().any(|&byte| byte > 1)
    }
}

/// The faults of a call without an outline and those that an outline adds: 2 is of either, after
/// it comes 13 and then 15, where something is asked for; 5 is also of what else is lent, and after
/// it comes 14, where the outline is searched.
fn with(door: &Door, plain: Faults, off_door: Option<bool>, searched: Option<bool>) -> Faults {
    let mut faults = Faults::new();
    for (holds, number) in plain {
        match number {
            2 => {
                faults.push((holds || door.short(), 2));
                faults.push((door.bad_byte(), 13));
                faults.extend(off_door.map(|off| (off, 15)));
            }
            5 => {
                faults.push((holds || searched.unwrap_or(false), 5));
                faults.extend(searched.map(|_| (!door.connected(), 14)));
            }
            _ => faults.push((holds, number)),
        }
    }
    faults
}

/// `search` is the length of the lent slice.
pub fn check_faults(door: &Door, search: usize) -> Faults {
    let (w, h) = door.size;
    let plain = vec![(oracle::size_fault(w, h), 1), (false, 2), (false, 5)];
    with(
        door,
        plain,
        None,
        Some(too_short(search, triangles((w, h)))),
    )
}

pub fn bezier_faults(net: &[i32], door: &Door, (i, j): Size, down: u32, out_len: usize) -> Faults {
    let plain = oracle::bezier_faults(net, door.size, (i, j), down, out_len);
    let kind = if down == 0 { Kind::Up } else { Kind::Down };
    let missing = down > 1 || !door.has(&Triangle::new(kind, i, j));
    with(door, plain, Some(missing), None)
}

/// For the surface point and the viewer's point.
pub fn point_faults(net: &[i32], door: &Door, place: Size, out_len: usize) -> Faults {
    let plain = oracle::point_faults(net, door.size, place, out_len);
    with(door, plain, Some(!door.holds(place, EDGE)), None)
}

/// The lengths of what is lent to refining with an outline.
#[derive(Clone, Copy, Debug)]
pub struct Lengths {
    pub out: usize,
    pub scratch: usize,
    pub fine: usize,
    pub search: usize,
}

impl Lengths {
    /// Whether the fine outline or the search is too short.
    fn too_short(&self, size: Size, k: usize) -> bool {
        too_short(self.fine, fine_triangles(size, k)) || too_short(self.search, triangles(size))
    }
}

pub fn refine_faults(net: &[i32], door: &Door, k: usize, lengths: Lengths) -> Faults {
    let plain = refinement::refine_faults(net, door.size, k, lengths.out, lengths.scratch);
    with(door, plain, None, Some(lengths.too_short(door.size, k)))
}

/// `point` is the length of the lent slice.
pub fn refined_point_faults(
    net: &[i32],
    door: &Door,
    k: usize,
    place: Size,
    lengths: Lengths,
    point: usize,
) -> Faults {
    let (size, out, scratch) = (door.size, lengths.out, lengths.scratch);
    let plain = refinement::refined_point_faults(net, size, k, place, out, scratch, point);
    // Where there are too many steps there is no such place.
    let off_door = k > 6 || !door.holds(place, EDGE << k);
    with(
        door,
        plain,
        Some(off_door),
        Some(lengths.too_short(size, k)),
    )
}
