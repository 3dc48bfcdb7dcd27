//! Outlines to test with. All have as many bytes as the net has triangles.

use crate::oracle::{Kind, Triangle};
use crate::outlines::{self, Door};
use crate::random::Random;

type Size = (usize, usize);

/// The bytes where present is what `present` says.
pub fn of(size: Size, present: impl Fn(&Triangle) -> bool) -> Vec<u8> {
    outlines::all(size).map(|t| u8::from(present(&t))).collect()
}

/// The bytes of a number, for all outlines of a net in turn.
pub fn numbered(size: Size, number: usize) -> Vec<u8> {
    let count = outlines::triangles(size).expect("a count");
    (0..count).map(|n| (number >> n & 1) as u8).collect()
}

pub fn full(size: Size) -> Vec<u8> {
    of(size, |_| true)
}

/// Whole cells.
fn cells(size: Size, present: impl Fn(usize, usize) -> bool) -> Vec<u8> {
    of(size, |t| present(t.i as usize, t.j as usize))
}

/// Rows that end alternately on the right and on the left, one cell between them.
pub fn snake((w, h): Size) -> Vec<u8> {
    cells((w, h), |i, j| match j % 4 {
        0 | 2 => true,
        1 => i == w - 2,
        _ => i == 0,
    })
}

/// A row of cells with a tooth on every second column.
pub fn comb(size: Size) -> Vec<u8> {
    cells(size, |i, j| j == 0 || i % 2 == 0)
}

/// The teeth of the comb alone, joined in the last row.
pub fn comb_from_above((w, h): Size) -> Vec<u8> {
    cells((w, h), |i, j| j == h - 2 || i % 2 == 0)
}

/// The border's cells.
pub fn ring((w, h): Size) -> Vec<u8> {
    cells((w, h), |i, j| i == 0 || j == 0 || i == w - 2 || j == h - 2)
}

/// Cells along a path that winds inwards with one cell between its turns.
pub fn spiral((w, h): Size) -> Vec<u8> {
    let (columns, rows) = (w as i64 - 1, h as i64 - 1);
    let mut taken = vec![false; (columns * rows) as usize];
    let inside = |i: i64, j: i64| (0..columns).contains(&i) && (0..rows).contains(&j);
    let at = |i: i64, j: i64| (j * columns + i) as usize;
    let steps = [(1, 0), (0, 1), (-1, 0), (0, -1)];
    let (mut i, mut j, mut turn, mut turned) = (0, 0, 0, 0);
    taken[0] = true;
    while turned < 2 {
        let (x, y) = steps[turn % 4];
        let free = inside(i + x, j + y) && !taken[at(i + x, j + y)];
        let apart = !inside(i + 2 * x, j + 2 * y) || !taken[at(i + 2 * x, j + 2 * y)];
        if free && apart {
            (i, j, turned) = (i + x, j + y, 0);
            taken[at(i, j)] = true;
        } else {
            (turn, turned) = (turn + 1, turned + 1);
        }
    }
    cells((w, h), |i, j| taken[at(i as i64, j as i64)])
}

/// Cells one to the right and then one up, from the first.
pub fn staircase(size: Size) -> Vec<u8> {
    cells(size, |i, j| i == j || i == j + 1)
}

/// Up triangles alone: no two share an edge.
pub fn ups(size: Size) -> Vec<u8> {
    of(size, |t| t.kind == Kind::Up)
}

/// The six triangles around a vertex.
pub fn hexagon(size: Size, (i, j): Size) -> Vec<u8> {
    let vertex = (i as i128, j as i128);
    of(size, |t| t.corners().contains(&vertex))
}

/// Each triangle present with so many chances of 100.
pub fn random(random: &mut Random, size: Size, chances: usize) -> Vec<u8> {
    let count = outlines::triangles(size).expect("a count");
    (0..count)
        .map(|_| u8::from(random.below(100) < chances))
        .collect()
}

/// A connected outline of up to so many triangles, grown at random from one.
pub fn grown(random: &mut Random, size: Size, most: usize) -> Vec<u8> {
    let all: Vec<Triangle> = outlines::all(size).collect();
    let mut bytes = vec![0; all.len()];
    let mut border = vec![random.pick(&all)];
    let mut count = 0;
    while count < most && !border.is_empty() {
        let next = border.swap_remove(random.below(border.len()));
        let n = all.iter().position(|t| *t == next).expect("of the net");
        if bytes[n] == 0 {
            bytes[n] = 1;
            count += 1;
            let near = outlines::neighbours(&next);
            border.extend(near.iter().filter(|t| all.contains(t)));
        }
    }
    assert!(Door::new(&bytes, size).connected());
    bytes
}

/// The named shapes at a size of at least 4 by 4.
pub fn shapes(size: Size) -> Vec<(&'static str, Vec<u8>)> {
    vec![
        ("full", full(size)),
        ("snake", snake(size)),
        ("comb", comb(size)),
        ("comb from above", comb_from_above(size)),
        ("ring", ring(size)),
        ("spiral", spiral(size)),
        ("staircase", staircase(size)),
        ("ups", ups(size)),
        ("hexagon", hexagon(size, (1, 2))),
    ]
}

/// The outline turned by half a turn: the order of the bytes is reversed.
pub fn turned(bytes: &[u8]) -> Vec<u8> {
    bytes.iter().rev().copied().collect()
}
