//! The numbers of a lent net, of lent details and of given points as the oracle has them. It takes
//! no length from the crate `ups`, whose own are held against these.

/// Numbers of a control point: x, y, z.
pub const POINT_RECORD: usize = 3;
/// Numbers of a vertex, which has three control points.
pub const RECORD: usize = 3 * POINT_RECORD;
/// Details of a vertex: x, y, z of three control points, whatever else a net stores for them.
pub const DETAIL_RECORD: usize = 9;
/// Given numbers of a vertex: x, y, z of p, t1 and t2, whatever a net stores for its controls.
pub const GIVEN_RECORD: usize = 9;

/// A control point as a net stores it.
pub type Control = [i32; POINT_RECORD];

/// The count of numbers of a net of this size.
pub const fn numbers((w, h): (usize, usize)) -> usize {
    RECORD * w * h
}

/// The count of details of a net of this size.
pub const fn details((w, h): (usize, usize)) -> usize {
    DETAIL_RECORD * w * h
}

/// The count of given numbers of a net of this size.
pub const fn given((w, h): (usize, usize)) -> usize {
    GIVEN_RECORD * w * h
}
