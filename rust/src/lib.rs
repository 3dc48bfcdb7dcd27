//! Uniform Powell-Sabin surfaces on a triangular grid: a safe interface to the static library
//! `ups`, whose calls are proved.
//!
//! - [`Net`], [`Door`] and [`Split`] own their numbers.
//! - [`lent`] has the same calls on borrowed slices, for callers who allocate nothing, and
//!   [`size`] the lengths of these slices.
//! - [`Refusal`] is the error of every call. A refused call changes nothing that was lent to it,
//!   but the search of a call with an outline.
//! - [`raw`] declares the library's functions and has all `unsafe` code.
//!
//! Outside [`raw`], every function can be called with any arguments; none panics. Splitting and
//! merging take less than 40 KB of stack, the library's other calls less than 4 KB.
//!
//! ```
//! let mut numbers = [0; ups::net_numbers(2, 2)];
//! numbers[2] = 120;
//! let net = ups::Net::new(2, 2, &numbers)?;
//! assert_eq!(net.point(256, 256)?, [0, 0, 48]);
//! assert_eq!(net.refine(1)?.vertex(0, 0)?, [0, 0, 80, 0, 0, 20, 0, 0, 20]);
//! assert_eq!(net.point(1025, 0), Err(ups::Refusal::PLACE));
//! # Ok::<(), ups::Refusal>(())
//! ```
//!
//! # Terms
//!
//! A **net** has `w` columns and `h` rows of vertices, 2 to 1,025 of each, and is stored row by
//! row. Vertex (i, j) is in column i and row j. Its **record** has three control points, c1, c2
//! and c3, each x, y, z: [`RECORD`] whole numbers in units of 1/1024 mm, from -16,777,216 to
//! 16,777,216.
//!
//! **Cell** (i, j) lies between columns i and i+1 and rows j and j+1. Its **up triangle** has the
//! corners (i, j), (i+1, j), (i, j+1), its **down triangle** (i+1, j), (i, j+1), (i+1, j+1).
//!
//! A **place** (p, q) counts 1,024ths of an edge: p goes up to 1024(w-1) and q to 1024(h-1). In the
//! net after k steps of refining the same place has 2^k times this p and q.
//!
//! Values are rounded to the nearest whole number, halves away from zero (document 02, d). So a
//! net with a coordinate negated, a left door for a right one, gives points, nets, details and
//! Bézier nets with that coordinate negated, and is refused alike.
//!
//! An **outline** has one byte for each triangle, 1 where it is present and 0 where it is missing:
//! row by row and cell by cell, up before down. A place is **on the door** where some present
//! triangle has it, edges included. Where a net is refined, its present triangles have to be
//! connected by edges.
//!
//! A **step** of refining halves every edge: w by h becomes 2w-1 by 2h-1. A net with odd sides
//! **splits** into a **coarse** net, whose refinement has the size of the net again, and the
//! **details** that this refinement lacks: [`DETAIL_RECORD`] numbers for each vertex, from
//! -33,554,432 to 33,554,432.
//!
//! At a **seam** two refinements of one net meet, by k steps on one side and by l on the other. A
//! place of it has a point on each side, and these are at most (k + l + 2)/2 units apart:
//! [`Net::seam_points`].
//!
//! **Given points** are a point p and two vectors t1 and t2 for each vertex, [`GIVEN_RECORD`]
//! numbers that may be any: the net through them has these points at its vertices, and slopes that
//! are twice the vectors.
//!
//! The formulas and the net file are in the repository's `docs/REFERENCE.md`.

#![deny(missing_docs)]
#![deny(unsafe_op_in_unsafe_fn)]
#![deny(unsafe_code)]
// The functions have the library's parameters.
#![allow(clippy::too_many_arguments)]

pub mod door;
pub mod lent;
pub mod net;
#[allow(unsafe_code)]
pub mod raw;
pub mod refusal;
pub mod size;
pub mod split;

pub use door::Door;
pub use net::Net;
pub use refusal::Refusal;
pub use size::{
    coarse_numbers, coarse_side, detail_numbers, file_bytes, file_numbers, given_numbers,
    net_numbers, refined_numbers, refined_triangles, scratch_numbers, side_after, triangles,
    BEZIER, DETAIL_RECORD, EDGE, FILE_WORDS, GIVEN_RECORD, GREATEST_DEPTH, GREATEST_SIDE,
    LEAST_SIDE, POINT, RECORD, SEAM_POINTS,
};
pub use split::Split;
