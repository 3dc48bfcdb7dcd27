//! How many numbers or bytes a call needs, before memory is lent.
//!
//! All functions answer 0 for what the library would refuse anyway: a slice of that length is
//! never read or written, and the call says why.
//!
//! Merging takes the sides of the coarse net. Its output has [`refined_numbers`]`(w, h, 1)`
//! numbers, and its details are [`detail_numbers`]`(side_after(w, 1), side_after(h, 1))`.

/// Numbers of a vertex in a net.
pub const RECORD: usize = 9;
/// Details of a vertex.
pub const DETAIL_RECORD: usize = 9;
/// Numbers of a vertex in given points: a point and two vectors.
pub const GIVEN_RECORD: usize = 9;
/// Numbers of a point.
pub const POINT: usize = 3;
/// Numbers of the two points of a seam.
pub const SEAM_POINTS: usize = 6;
/// Numbers of a Bézier net: 19 points.
pub const BEZIER: usize = 57;
/// Words of a vertex in a file.
pub const FILE_WORDS: usize = 9;

/// Parts of an edge that a place counts.
pub const EDGE: usize = 1024;

/// The least count of vertices of a side.
pub const LEAST_SIDE: usize = 2;
/// The greatest count of vertices of a side.
pub const GREATEST_SIDE: usize = 1025;
/// The greatest count of steps of refining.
pub const GREATEST_DEPTH: usize = 6;

/// Words of a file that are of no vertex: width, height, end.
const OTHER_WORDS: usize = 3;
/// Bytes of a word.
const WORD: usize = 4;
/// The bits of a word below its kind.
const PAYLOAD: u32 = 0x0fff_ffff;

const fn is_side(side: usize) -> bool {
    LEAST_SIDE <= side && side <= GREATEST_SIDE
}

/// 0 where a side is out of range.
const fn vertices(w: usize, h: usize) -> usize {
    if is_side(w) && is_side(h) {
        w * h
    } else {
        0
    }
}

/// The numbers of a net of w by h; 0 where a side is below 2 or above 1,025.
///
/// ```
/// assert_eq!(ups::net_numbers(2, 3), 54);
/// assert_eq!(ups::net_numbers(2, 1026), 0);
/// ```
pub const fn net_numbers(w: usize, h: usize) -> usize {
    RECORD * vertices(w, h)
}

/// The numbers of the given points of a net of w by h; 0 where a side is out of range.
///
/// ```
/// assert_eq!(ups::given_numbers(2, 3), 54);
/// assert_eq!(ups::given_numbers(1, 3), 0);
/// ```
pub const fn given_numbers(w: usize, h: usize) -> usize {
    GIVEN_RECORD * vertices(w, h)
}

/// A side after k steps; 0 where the side is out of range, k is above 6 or the answer would be
/// above 1,025.
///
/// ```
/// assert_eq!(ups::side_after(17, 6), 1025);
/// assert_eq!(ups::side_after(18, 6), 0);
/// ```
pub const fn side_after(side: usize, k: usize) -> usize {
    if !is_side(side) || k > GREATEST_DEPTH {
        return 0;
    }
    let after = ((side - 1) << k) + 1;
    if is_side(after) {
        after
    } else {
        0
    }
}

/// The numbers of a net of w by h after k steps; 0 where the steps are refused.
pub const fn refined_numbers(w: usize, h: usize, k: usize) -> usize {
    net_numbers(side_after(w, k), side_after(h, k))
}

/// The numbers of the scratch for k steps: of the net after k - 1 steps where k is 2 or more. 0
/// where k is 0 or 1, and where the k steps are refused.
///
/// ```
/// assert_eq!(ups::scratch_numbers(2, 2, 2), ups::net_numbers(3, 3));
/// assert_eq!(ups::scratch_numbers(2, 2, 1), 0);
/// ```
pub const fn scratch_numbers(w: usize, h: usize, k: usize) -> usize {
    if k < 2 || refined_numbers(w, h, k) == 0 {
        0
    } else {
        refined_numbers(w, h, k - 1)
    }
}

/// The triangles of a net of w by h: the bytes of its outline, and the numbers of the search. 0
/// where a side is out of range.
///
/// ```
/// assert_eq!(ups::triangles(3, 2), 4);
/// assert_eq!(ups::triangles(3, 1), 0);
/// ```
pub const fn triangles(w: usize, h: usize) -> usize {
    if is_side(w) && is_side(h) {
        2 * (w - 1) * (h - 1)
    } else {
        0
    }
}

/// The triangles of a net of w by h after k steps: the bytes of its outline. 0 where the steps are
/// refused.
///
/// ```
/// assert_eq!(ups::refined_triangles(3, 2, 2), 64);
/// assert_eq!(ups::refined_triangles(18, 2, 6), 0);
/// ```
pub const fn refined_triangles(w: usize, h: usize, k: usize) -> usize {
    triangles(side_after(w, k), side_after(h, k))
}

/// The bytes of the file of a net of w by h; 0 where a side is out of range.
///
/// ```
/// assert_eq!(ups::file_bytes(2, 2), 156);
/// ```
pub const fn file_bytes(w: usize, h: usize) -> usize {
    match vertices(w, h) {
        0 => 0,
        count => WORD * (FILE_WORDS * count + OTHER_WORDS),
    }
}

/// The numbers of the net whose width and height are the payloads of the file's first two words,
/// whatever the kinds of these words: the room that reading needs. 0 where there are fewer than 8
/// bytes or a side is out of range.
///
/// ```
/// assert_eq!(ups::file_numbers(&[0x10, 0, 0, 2, 0x20, 0, 0, 3]), 54);
/// ```
pub const fn file_numbers(file: &[u8]) -> usize {
    match *file {
        [a, b, c, d, e, f, g, h, ..] => net_numbers(payload([a, b, c, d]), payload([e, f, g, h])),
        _ => 0,
    }
}

const fn payload(word: [u8; WORD]) -> usize {
    (u32::from_be_bytes(word) & PAYLOAD) as usize
}

/// The side of the coarse net: half of it, rounded up, of an odd side from 3 to 1,025; else 0.
pub const fn coarse_side(side: usize) -> usize {
    if is_side(side) && side % 2 == 1 {
        side / 2 + 1
    } else {
        0
    }
}

/// The numbers of the coarse net of a net of w by h; 0 where it has none.
///
/// ```
/// assert_eq!(ups::coarse_numbers(3, 5), ups::net_numbers(2, 3));
/// assert_eq!(ups::coarse_numbers(3, 4), 0);
/// ```
pub const fn coarse_numbers(w: usize, h: usize) -> usize {
    net_numbers(coarse_side(w), coarse_side(h))
}

/// The details of a net of w by h; 0 where a side is even or out of range.
pub const fn detail_numbers(w: usize, h: usize) -> usize {
    if coarse_numbers(w, h) == 0 {
        0
    } else {
        DETAIL_RECORD * vertices(w, h)
    }
}
