//! Outlines in plain Rust: the check by a flood with a stack, to compare the library with, and the
//! library's search by links, to count the links that it follows.

use crate::plain::{check_size, Refusal};
use crate::plain_refine::Size;
use ups::triangles;

/// The triangles that share an edge with the one of this byte, those of the net.
fn neighbours(byte: usize, (w, h): Size) -> impl Iterator<Item = usize> {
    let (columns, rows) = (w - 1, h - 1);
    // in 32 bits, where a division takes less
    let (cell, across) = (byte as u32 / 2, columns as u32);
    let (i, j) = ((cell % across) as usize, (cell / across) as usize);
    let row = 2 * columns;
    let near = match byte % 2 {
        0 => [
            Some(byte + 1),
            (i > 0).then(|| byte - 1),
            (j > 0).then(|| byte + 1 - row),
        ],
        _ => [
            Some(byte - 1),
            (i + 1 < columns).then(|| byte + 1),
            (j + 1 < rows).then(|| byte - 1 + row),
        ],
    };
    near.into_iter().flatten()
}

/// `ups_check_outline` without a search to lend.
#[inline(never)]
pub fn check(outline: &[u8], (w, h): Size) -> Result<(), Refusal> {
    check_size(w, h)?;
    let outline = outline.get(..triangles(w, h)).ok_or(2u32)?;
    if outline.iter().any(|&byte| byte > 1) {
        return Err(13);
    }
    let first = outline.iter().position(|&byte| byte == 1).ok_or(14u32)?;
    let mut reached = vec![false; outline.len()];
    let mut stack = vec![first as u32];
    reached[first] = true;
    while let Some(byte) = stack.pop() {
        for next in neighbours(byte as usize, (w, h)) {
            if outline[next] == 1 && !reached[next] {
                reached[next] = true;
                stack.push(next as u32);
            }
        }
    }
    let all = outline
        .iter()
        .zip(reached)
        .all(|(&byte, is)| byte == 0 || is);
    all.then_some(()).ok_or(14)
}

/// The test for a byte above 1 alone, without an early end.
#[inline(never)]
pub fn bad_byte(outline: &[u8]) -> bool {
    outline.iter().fold(false, |bad, &byte| bad | (byte > 1))
}

/// Links from triangles to smaller ones, which are joined cell by cell, and how many were followed.
struct Links {
    to: Vec<u32>,
    followed: usize,
}

impl Links {
    fn root(&mut self, triangle: usize) -> usize {
        let mut root = triangle;
        loop {
            let up = self.to[root] as usize;
            if up == root {
                return root;
            }
            self.followed += 1;
            root = up;
        }
    }

    fn join(&mut self, outline: &[u8], a: usize, b: usize) {
        if outline[a] == 1 && outline[b] == 1 {
            let (r, s) = (self.root(a), self.root(b));
            self.to[r.max(s)] = r.min(s) as u32;
        }
    }
}

/// The links that the search by links follows, a triangle.
pub fn links_followed(outline: &[u8], (w, h): Size) -> f64 {
    let count = triangles(w, h);
    let to = (0..count as u32).collect();
    let mut links = Links { to, followed: 0 };
    for j in 0..h - 1 {
        for i in 0..w - 1 {
            let at = 2 * (j * (w - 1) + i);
            links.join(outline, at, at + 1);
            if i + 2 < w {
                links.join(outline, at + 1, at + 2);
            }
            if j + 2 < h {
                links.join(outline, at + 1, at + 2 * (w - 1));
            }
        }
    }
    links.followed as f64 / count as f64
}

/// The outline of whole cells.
fn cells((w, h): Size, present: impl Fn(usize, usize) -> bool) -> Vec<u8> {
    let cell = |n: usize| u8::from(present(n % (w - 1), n / (w - 1)));
    (0..triangles(w, h)).map(|byte| cell(byte / 2)).collect()
}

pub fn full(size: Size) -> Vec<u8> {
    cells(size, |_, _| true)
}

/// The first row, and every second column.
pub fn comb(size: Size) -> Vec<u8> {
    cells(size, |i, j| j == 0 || i % 2 == 0)
}

/// A path of cells that winds inwards, with one cell between its turns.
pub fn spiral((w, h): Size) -> Vec<u8> {
    let (columns, rows) = (w as i64 - 1, h as i64 - 1);
    let mut taken = vec![false; (columns * rows) as usize];
    let inside = |i: i64, j: i64| (0..columns).contains(&i) && (0..rows).contains(&j);
    let at = |i: i64, j: i64| (j * columns + i) as usize;
    let steps = [(1, 0), (0, 1), (-1, 0), (0, -1)];
    let (mut i, mut j, mut turn, mut turned) = (0, 0, 0, 0);
    taken[0] = true;
    while turned < 2 {
        let (x, y) = steps[turn % 4];
        let free = |n: i64| !inside(i + n * x, j + n * y) || !taken[at(i + n * x, j + n * y)];
        if inside(i + x, j + y) && free(1) && free(2) {
            (i, j, turned) = (i + x, j + y, 0);
            taken[at(i, j)] = true;
        } else {
            (turn, turned) = (turn + 1, turned + 1);
        }
    }
    cells((w, h), |i, j| taken[at(i as i64, j as i64)])
}

/// The outline turned by half a turn.
pub fn turned(outline: Vec<u8>) -> Vec<u8> {
    outline.into_iter().rev().collect()
}
