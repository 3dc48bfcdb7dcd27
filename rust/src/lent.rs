//! The calls on borrowed slices with lent outputs, for callers who allocate nothing.
//!
//! `net` begins with the numbers of a net of `w` by `h`, `outline` with the bytes of its outline.
//! What follows them is neither read nor changed, and neither is what follows a result in its
//! output. A refused call changes nothing but a search, where it says so.
//! [`size`](crate::size) tells how long an output has to be.
//!
//! The errors of a call are given as constants of [`Refusal`], in the order in which the library
//! looks for them.

use crate::raw;
use crate::size::RECORD;
use crate::Refusal;

/// The record of vertex (i, j), as that part of the net. Its numbers are not tested.
///
/// # Errors
///
/// `SIZE`, `PLACE`, `SHORT`.
#[inline]
pub fn vertex(net: &[i32], w: usize, h: usize, i: usize, j: usize) -> Result<&[i32], Refusal> {
    Refusal::check(raw::vertex_refusal(net, w, h, i, j))?;
    let record = net.chunks_exact(RECORD).nth(j * w + i);
    record.ok_or(Refusal::SHORT)
}

/// The Bézier net of the down triangle of cell (i, j) where `down`, else of the up triangle, into
/// [`BEZIER`] numbers of `out`. They are 36 times x, y, z of 19 points: s1 s2 s3; u12 u13 u21 u23
/// u31 u32; v1 v2 v3; r12 r13 r23; m12 m13 m23; z.
///
/// # Errors
///
/// `SIZE`, `PLACE`, `SHORT`, `ROOM`, `RANGE`; the last of the triangle's nine control points alone.
///
/// [`BEZIER`]: crate::BEZIER
#[inline]
pub fn bezier_net(
    net: &[i32],
    w: usize,
    h: usize,
    i: usize,
    j: usize,
    down: bool,
    out: &mut [i32],
) -> Result<(), Refusal> {
    let down = u32::from(down);
    Refusal::check(raw::bezier_net(net, w, h, i, j, down, out))
}

/// x, y, z of the surface point at place (p, q) into [`POINT`] numbers of `out`, each coordinate
/// rounded once to the nearest whole number, halves away from zero (document 02, d).
///
/// # Errors
///
/// `SIZE`, `PLACE`, `SHORT`, `ROOM`, `RANGE`; the last of the nine control points of the place's
/// triangle alone.
///
/// ```
/// let mut net = [0; ups::net_numbers(2, 2)];
/// net[2] = 120;
/// let mut out = [0; ups::POINT];
/// ups::lent::surface_point(&net, 2, 2, 0, 512, &mut out)?;
/// assert_eq!(out, [0, 0, 30]);
/// # Ok::<(), ups::Refusal>(())
/// ```
///
/// [`POINT`]: crate::POINT
#[inline]
pub fn surface_point(
    net: &[i32],
    w: usize,
    h: usize,
    p: usize,
    q: usize,
    out: &mut [i32],
) -> Result<(), Refusal> {
    Refusal::check(raw::surface_point(net, w, h, p, q, out))
}

/// The surface point in millimetres: each coordinate as a double, divided by 1024.
///
/// # Errors
///
/// Those of [`surface_point`].
#[inline]
pub fn view_point(
    net: &[i32],
    w: usize,
    h: usize,
    p: usize,
    q: usize,
    out: &mut [f64],
) -> Result<(), Refusal> {
    Refusal::check(raw::view_point(net, w, h, p, q, out))
}

/// The file of the net into [`file_bytes`]`(w, h)` bytes of `out`. Gives the count of these bytes.
///
/// # Errors
///
/// `SIZE`, `SHORT`, `ROOM`, `RANGE`.
///
/// [`file_bytes`]: crate::file_bytes
#[inline]
pub fn write(net: &[i32], w: usize, h: usize, out: &mut [u8]) -> Result<usize, Refusal> {
    let mut written = [0];
    Refusal::check(raw::write(net, w, h, out, &mut written))?;
    let [count] = written;
    Ok(count as usize)
}

/// The net of a file into [`file_numbers`]`(file)` numbers of `net`. Gives its width and height.
///
/// # Errors
///
/// Word by word: for the width and then for the height `MISSING_WORD`, `WRONG_WORD`, `SIZE`; then
/// `ROOM`; for each number `MISSING_WORD`, `WRONG_WORD`, `RANGE`; for the end word `MISSING_WORD`,
/// `WRONG_WORD`; last `TRAILING`.
///
/// [`file_numbers`]: crate::file_numbers
#[inline]
pub fn read(file: &[u8], net: &mut [i32]) -> Result<(usize, usize), Refusal> {
    let mut size = [0; 2];
    Refusal::check(raw::read(file, net, &mut size))?;
    let [w, h] = size;
    Ok((w as usize, h as usize))
}

/// The net after k steps of refining, 0 to 6, into [`refined_numbers`]`(w, h, k)` numbers of
/// `out`; with k = 0 a copy. `scratch` has [`scratch_numbers`]`(w, h, k)` numbers, which may hold
/// anything afterwards.
///
/// # Errors
///
/// `SIZE`, `DEPTH`, `SHORT`, `ROOM`, `RANGE`.
///
/// [`refined_numbers`]: crate::refined_numbers
/// [`scratch_numbers`]: crate::scratch_numbers
#[inline]
pub fn refine(
    net: &[i32],
    w: usize,
    h: usize,
    k: usize,
    out: &mut [i32],
    scratch: &mut [i32],
) -> Result<(), Refusal> {
    Refusal::check(raw::refine(net, w, h, k, out, scratch))
}

/// The net after k steps as [`refine`] gives it, and the surface point at place (p, q) of the
/// refined net into [`POINT`] numbers of `point`. This is the call of the promise to the cutter:
/// in each coordinate the point is within (k + 1)/2 units of the exact spline of `net`, and
/// between the least and the greatest of the nine control values of each triangle of `net` that
/// holds the place.
///
/// # Errors
///
/// `SIZE`, `DEPTH`, `PLACE`, `SHORT`, `ROOM`, `RANGE`.
///
/// [`POINT`]: crate::POINT
#[inline]
pub fn refined_point(
    net: &[i32],
    w: usize,
    h: usize,
    k: usize,
    p: usize,
    q: usize,
    out: &mut [i32],
    scratch: &mut [i32],
    point: &mut [i32],
) -> Result<(), Refusal> {
    let refusal = raw::refined_point(net, w, h, k, p, q, out, scratch, point);
    Refusal::check(refusal)
}

/// The net after k steps into `out` and the net after l steps into `out2`, each as [`refine`]
/// gives it, and the surface points at one place of `net`: that at place (p, q) of the first
/// refined net and then that at place (p2, q2) of the second, into [`SEAM_POINTS`] numbers of
/// `points`. They are one place where p·2^l = p2·2^k and q·2^l = q2·2^k. `scratch` is for k steps
/// and `scratch2` for l.
///
/// This is the call of the promise of a seam, where a refinement by k steps meets one by l: in
/// each coordinate the two points differ by at most (k + l + 2)/2 units, and where k = l they are
/// equal. Each has the promise of [`refined_point`].
///
/// # Errors
///
/// `SIZE`, `DEPTH`, `PLACE`, `SHORT`, `ROOM`, `RANGE`; `PLACE` also where they are not one place.
///
/// ```
/// use ups::{lent::seam_points, Refusal};
///
/// let mut net = [0; ups::net_numbers(2, 2)];
/// net[2] = 120;
/// let (mut out, mut out2) = ([0; ups::net_numbers(2, 2)], [0; ups::net_numbers(3, 3)]);
/// let (by, to) = (&mut [], &mut [0; ups::SEAM_POINTS]);
/// // The middle of the lower edge, without a step and after one; neither needs a scratch.
/// seam_points(&net, 2, 2, 0, 1, 512, 0, 1024, 0, &mut out, by, &mut out2, &mut [], to)?;
/// assert_eq!(*to, [0, 0, 40, 0, 0, 40]);
/// let other = seam_points(&net, 2, 2, 0, 1, 512, 0, 512, 0, &mut out, by, &mut out2, &mut [], to);
/// assert_eq!(other, Err(Refusal::PLACE));
/// # Ok::<(), ups::Refusal>(())
/// ```
///
/// [`SEAM_POINTS`]: crate::SEAM_POINTS
#[inline]
pub fn seam_points(
    net: &[i32],
    w: usize,
    h: usize,
    k: usize,
    l: usize,
    p: usize,
    q: usize,
    p2: usize,
    q2: usize,
    out: &mut [i32],
    scratch: &mut [i32],
    out2: &mut [i32],
    scratch2: &mut [i32],
    points: &mut [i32],
) -> Result<(), Refusal> {
    Refusal::check(raw::seam_points(
        net, w, h, k, l, p, q, p2, q2, out, scratch, out2, scratch2, points,
    ))
}

/// Whether an outline of [`triangles`]`(w, h)` bytes is one that [`refine_outlined`] takes. The
/// first [`triangles`]`(w, h)` numbers of `search` may hold anything afterwards where the outline
/// is accepted or not connected.
///
/// # Errors
///
/// `SIZE`, `SHORT`, `OUTLINE_BYTE`, `ROOM`, `NOT_CONNECTED`.
///
/// ```
/// use ups::{lent::check_outline, Refusal};
///
/// let mut search = [0; ups::triangles(3, 2)];
/// assert_eq!(check_outline(&[1, 1, 1, 0], 3, 2, &mut search), Ok(()));
/// // Both up triangles of the row meet at a vertex alone.
/// let apart = check_outline(&[1, 0, 1, 0], 3, 2, &mut search);
/// assert_eq!(apart, Err(Refusal::NOT_CONNECTED));
/// ```
///
/// [`triangles`]: crate::triangles
#[inline]
pub fn check_outline(
    outline: &[u8],
    w: usize,
    h: usize,
    search: &mut [u32],
) -> Result<(), Refusal> {
    Refusal::check(raw::check_outline(outline, w, h, search))
}

/// As [`bezier_net`], of a triangle that is present in an outline of
/// [`triangles`](crate::triangles)`(w, h)` bytes.
///
/// # Errors
///
/// `SIZE`, `PLACE`, `SHORT`, `OUTLINE_BYTE`, `OFF_DOOR`, `ROOM`, `RANGE`; the last of the
/// triangle's nine control points alone.
#[inline]
pub fn bezier_net_outlined(
    net: &[i32],
    w: usize,
    h: usize,
    outline: &[u8],
    i: usize,
    j: usize,
    down: bool,
    out: &mut [i32],
) -> Result<(), Refusal> {
    let down = u32::from(down);
    let refusal = raw::bezier_net_outlined(net, w, h, outline, i, j, down, out);
    Refusal::check(refusal)
}

/// As [`surface_point`], at a place on the door that an outline of
/// [`triangles`](crate::triangles)`(w, h)` bytes has. All these bytes are tested, so the time grows
/// with them.
///
/// # Errors
///
/// `SIZE`, `PLACE`, `SHORT`, `OUTLINE_BYTE`, `OFF_DOOR`, `ROOM`, `RANGE`; the last of the nine
/// control points of the place's triangle alone, also where that triangle is missing and another
/// has the place.
#[inline]
pub fn surface_point_outlined(
    net: &[i32],
    w: usize,
    h: usize,
    outline: &[u8],
    p: usize,
    q: usize,
    out: &mut [i32],
) -> Result<(), Refusal> {
    let refusal = raw::surface_point_outlined(net, w, h, outline, p, q, out);
    Refusal::check(refusal)
}

/// The point of [`surface_point_outlined`] in millimetres: each coordinate as a double, divided by
/// 1024.
///
/// # Errors
///
/// Those of [`surface_point_outlined`].
#[inline]
pub fn view_point_outlined(
    net: &[i32],
    w: usize,
    h: usize,
    outline: &[u8],
    p: usize,
    q: usize,
    out: &mut [f64],
) -> Result<(), Refusal> {
    let refusal = raw::view_point_outlined(net, w, h, outline, p, q, out);
    Refusal::check(refusal)
}

/// The net after k steps as [`refine`] gives it, and its outline into
/// [`refined_triangles`]`(w, h, k)` bytes of `fine`: a triangle of the refined net is present where
/// it lies in a present triangle of the net. `outline` and `search` have [`triangles`]`(w, h)`
/// bytes and numbers; those of `search` may hold anything afterwards where the call is accepted or
/// refused by `NOT_CONNECTED` or `RANGE`.
///
/// # Errors
///
/// `SIZE`, `DEPTH`, `SHORT`, `OUTLINE_BYTE`, `ROOM`, `NOT_CONNECTED`, `RANGE`; the last of every
/// vertex.
///
/// [`refined_triangles`]: crate::refined_triangles
/// [`triangles`]: crate::triangles
#[inline]
pub fn refine_outlined(
    net: &[i32],
    w: usize,
    h: usize,
    k: usize,
    outline: &[u8],
    out: &mut [i32],
    scratch: &mut [i32],
    fine: &mut [u8],
    search: &mut [u32],
) -> Result<(), Refusal> {
    let refusal = raw::refine_outlined(net, w, h, k, outline, out, scratch, fine, search);
    Refusal::check(refusal)
}

/// The net after k steps and its outline as [`refine_outlined`] gives them, and the surface point
/// at place (p, q) of the refined net, which is on the door, into [`POINT`](crate::POINT) numbers
/// of `point`, with the promise of [`refined_point`].
///
/// # Errors
///
/// `SIZE`, `DEPTH`, `PLACE`, `SHORT`, `OUTLINE_BYTE`, `OFF_DOOR`, `ROOM`, `NOT_CONNECTED`, `RANGE`.
#[inline]
pub fn refined_point_outlined(
    net: &[i32],
    w: usize,
    h: usize,
    k: usize,
    outline: &[u8],
    p: usize,
    q: usize,
    out: &mut [i32],
    scratch: &mut [i32],
    fine: &mut [u8],
    search: &mut [u32],
    point: &mut [i32],
) -> Result<(), Refusal> {
    Refusal::check(raw::refined_point_outlined(
        net, w, h, k, outline, p, q, out, scratch, fine, search, point,
    ))
}

/// The coarse net into [`coarse_numbers`]`(w, h)` numbers of `coarse`, and the details of the net
/// into [`detail_numbers`]`(w, h)` numbers of `details`.
///
/// # Errors
///
/// `SIZE`, `EVEN`, `SHORT`, `ROOM`, `RANGE`, `RESULT`; the last of a coarse number.
///
/// [`coarse_numbers`]: crate::coarse_numbers
/// [`detail_numbers`]: crate::detail_numbers
#[inline]
pub fn split(
    net: &[i32],
    w: usize,
    h: usize,
    coarse: &mut [i32],
    details: &mut [i32],
) -> Result<(), Refusal> {
    Refusal::check(raw::split(net, w, h, coarse, details))
}

/// One refinement of `coarse`, a net of `w` by `h`, plus `details`, of which there are
/// [`detail_numbers`]`(side_after(w, 1), side_after(h, 1))`, into [`refined_numbers`]`(w, h, 1)`
/// numbers of `out`.
///
/// # Errors
///
/// `SIZE`, `DEPTH`, `SHORT`, `ROOM`, `RANGE`, `RESULT`; the last of a number of the merged net.
///
/// [`detail_numbers`]: crate::detail_numbers
/// [`refined_numbers`]: crate::refined_numbers
#[inline]
pub fn merge(
    coarse: &[i32],
    details: &[i32],
    w: usize,
    h: usize,
    out: &mut [i32],
) -> Result<(), Refusal> {
    Refusal::check(raw::merge(coarse, details, w, h, out))
}

/// Sets each detail whose size is below the threshold `t` to 0; `w` and `h` are those of the net
/// that was split.
///
/// # Errors
///
/// `SIZE`, `EVEN`, `THRESHOLD`, `SHORT`, `RANGE`.
#[inline]
pub fn clean(details: &mut [i32], w: usize, h: usize, t: u32) -> Result<(), Refusal> {
    Refusal::check(raw::clean(details, w, h, t))
}

/// The net of `w` by `h` through given points into [`net_numbers`]`(w, h)` numbers of `out`.
/// `given` begins with a point p and two vectors t1 and t2 of each vertex, row by row, each x, y,
/// z: [`GIVEN_RECORD`] numbers a vertex, which may be any. The control points are c1 = p + t1,
/// c2 = p + t2 and c3 = p - t1 - t2, exactly. This is Hermite interpolation: the surface point at
/// each vertex is p, also after one step of refining, and each quadratic piece of the exact spline
/// that meets the vertex has the derivatives 2 t1 along (1, 0) and 2 t2 along (-1, 1) there, for
/// one edge. No other net has these points and derivatives at its vertices.
///
/// # Errors
///
/// `SIZE`, `SHORT`, `ROOM`, `CONTROL_RANGE`.
///
/// ```
/// // At each vertex the point (10, 20, 30), with slopes in z alone.
/// let given = [10, 20, 30, 0, 0, 3, 0, 0, -1].repeat(4);
/// let mut net = [0; ups::net_numbers(2, 2)];
/// ups::lent::from_points(&given, 2, 2, &mut net)?;
/// assert_eq!(net[..ups::RECORD], [10, 20, 33, 10, 20, 29, 10, 20, 28]);
/// let mut at = [0; ups::POINT];
/// ups::lent::surface_point(&net, 2, 2, 1024, 0, &mut at)?;
/// assert_eq!(at, [10, 20, 30]);
/// # Ok::<(), ups::Refusal>(())
/// ```
///
/// [`net_numbers`]: crate::net_numbers
/// [`GIVEN_RECORD`]: crate::GIVEN_RECORD
#[inline]
pub fn from_points(given: &[i32], w: usize, h: usize, out: &mut [i32]) -> Result<(), Refusal> {
    Refusal::check(raw::from_points(given, w, h, out))
}
