//! The exports of the static library as they are, and all `unsafe` code of this crate.
//!
//! A slice is a pointer and then its length. The answer is 0, or the number of the call's first
//! fault; then nothing that was lent has changed but the search of a call with an outline.
//! [`Refusal::check`](crate::Refusal::check) makes a `Result` of it.
//!
//! # Safety
//!
//! A pointer is valid for as many numbers as the length after it says, to be read, and to be
//! written where it is `*mut`. A slice of length 0 may have a null pointer. A slice that is
//! written overlaps no other slice of the call; slices that are only read may overlap each other.
//! All other arguments may be any numbers.

extern "C" {
    /// Whether [`lent::vertex`](crate::lent::vertex) has a record to give: its refusal, or 0.
    pub fn ups_vertex_refusal(
        net: *const i32,
        net_len: usize,
        w: usize,
        h: usize,
        i: usize,
        j: usize,
    ) -> u32;

    /// [`lent::bezier_net`](crate::lent::bezier_net). `down` is 0 or 1; another number names no
    /// triangle: 6.
    pub fn ups_bezier_net(
        net: *const i32,
        net_len: usize,
        w: usize,
        h: usize,
        i: usize,
        j: usize,
        down: u32,
        out: *mut i32,
        out_len: usize,
    ) -> u32;

    /// [`lent::surface_point`](crate::lent::surface_point).
    pub fn ups_surface_point(
        net: *const i32,
        net_len: usize,
        w: usize,
        h: usize,
        p: usize,
        q: usize,
        out: *mut i32,
        out_len: usize,
    ) -> u32;

    /// [`lent::view_point`](crate::lent::view_point).
    pub fn ups_view_point(
        net: *const i32,
        net_len: usize,
        w: usize,
        h: usize,
        p: usize,
        q: usize,
        out: *mut f64,
        out_len: usize,
    ) -> u32;

    /// [`lent::write`](crate::lent::write). The count of bytes is put into `written`, of one
    /// number; with less room the refusal is 5.
    pub fn ups_write(
        net: *const i32,
        net_len: usize,
        w: usize,
        h: usize,
        out: *mut u8,
        out_len: usize,
        written: *mut u64,
        written_len: usize,
    ) -> u32;

    /// [`lent::read`](crate::lent::read). Width and height are put into `size`, of two numbers;
    /// with less room the refusal is 5.
    pub fn ups_read(
        file: *const u8,
        file_len: usize,
        net: *mut i32,
        net_len: usize,
        size: *mut u64,
        size_len: usize,
    ) -> u32;

    /// [`lent::refine`](crate::lent::refine).
    pub fn ups_refine(
        net: *const i32,
        net_len: usize,
        w: usize,
        h: usize,
        k: usize,
        out: *mut i32,
        out_len: usize,
        scratch: *mut i32,
        scratch_len: usize,
    ) -> u32;

    /// [`lent::refined_point`](crate::lent::refined_point).
    pub fn ups_refined_point(
        net: *const i32,
        net_len: usize,
        w: usize,
        h: usize,
        k: usize,
        p: usize,
        q: usize,
        out: *mut i32,
        out_len: usize,
        scratch: *mut i32,
        scratch_len: usize,
        point: *mut i32,
        point_len: usize,
    ) -> u32;

    /// [`lent::seam_points`](crate::lent::seam_points).
    pub fn ups_seam_points(
        net: *const i32,
        net_len: usize,
        w: usize,
        h: usize,
        k: usize,
        l: usize,
        p: usize,
        q: usize,
        p2: usize,
        q2: usize,
        out: *mut i32,
        out_len: usize,
        scratch: *mut i32,
        scratch_len: usize,
        out2: *mut i32,
        out2_len: usize,
        scratch2: *mut i32,
        scratch2_len: usize,
        points: *mut i32,
        points_len: usize,
    ) -> u32;

    /// [`lent::check_outline`](crate::lent::check_outline).
    pub fn ups_check_outline(
        outline: *const u8,
        outline_len: usize,
        w: usize,
        h: usize,
        search: *mut u32,
        search_len: usize,
    ) -> u32;

    /// [`lent::bezier_net_outlined`](crate::lent::bezier_net_outlined). `down` is 0 or 1; another
    /// number names no triangle: 6.
    pub fn ups_bezier_net_outlined(
        net: *const i32,
        net_len: usize,
        w: usize,
        h: usize,
        outline: *const u8,
        outline_len: usize,
        i: usize,
        j: usize,
        down: u32,
        out: *mut i32,
        out_len: usize,
    ) -> u32;

    /// [`lent::surface_point_outlined`](crate::lent::surface_point_outlined).
    pub fn ups_surface_point_outlined(
        net: *const i32,
        net_len: usize,
        w: usize,
        h: usize,
        outline: *const u8,
        outline_len: usize,
        p: usize,
        q: usize,
        out: *mut i32,
        out_len: usize,
    ) -> u32;

    /// [`lent::view_point_outlined`](crate::lent::view_point_outlined).
    pub fn ups_view_point_outlined(
        net: *const i32,
        net_len: usize,
        w: usize,
        h: usize,
        outline: *const u8,
        outline_len: usize,
        p: usize,
        q: usize,
        out: *mut f64,
        out_len: usize,
    ) -> u32;

    /// [`lent::refine_outlined`](crate::lent::refine_outlined).
    pub fn ups_refine_outlined(
        net: *const i32,
        net_len: usize,
        w: usize,
        h: usize,
        k: usize,
        outline: *const u8,
        outline_len: usize,
        out: *mut i32,
        out_len: usize,
        scratch: *mut i32,
        scratch_len: usize,
        fine: *mut u8,
        fine_len: usize,
        search: *mut u32,
        search_len: usize,
    ) -> u32;

    /// [`lent::refined_point_outlined`](crate::lent::refined_point_outlined).
    pub fn ups_refined_point_outlined(
        net: *const i32,
        net_len: usize,
        w: usize,
        h: usize,
        k: usize,
        outline: *const u8,
        outline_len: usize,
        p: usize,
        q: usize,
        out: *mut i32,
        out_len: usize,
        scratch: *mut i32,
        scratch_len: usize,
        fine: *mut u8,
        fine_len: usize,
        search: *mut u32,
        search_len: usize,
        point: *mut i32,
        point_len: usize,
    ) -> u32;

    /// [`lent::split`](crate::lent::split).
    pub fn ups_split(
        net: *const i32,
        net_len: usize,
        w: usize,
        h: usize,
        coarse: *mut i32,
        coarse_len: usize,
        details: *mut i32,
        details_len: usize,
    ) -> u32;

    /// [`lent::merge`](crate::lent::merge).
    pub fn ups_merge(
        coarse: *const i32,
        coarse_len: usize,
        details: *const i32,
        details_len: usize,
        w: usize,
        h: usize,
        out: *mut i32,
        out_len: usize,
    ) -> u32;

    /// [`lent::clean`](crate::lent::clean).
    pub fn ups_clean(details: *mut i32, details_len: usize, w: usize, h: usize, t: u32) -> u32;

    /// [`lent::from_points`](crate::lent::from_points).
    pub fn ups_from_points(
        given: *const i32,
        given_len: usize,
        w: usize,
        h: usize,
        out: *mut i32,
        out_len: usize,
    ) -> u32;
}

// The same over slices. Each pointer and length below is of one slice, and a slice that is
// written is borrowed by nothing else.

#[inline]
pub(crate) fn vertex_refusal(net: &[i32], w: usize, h: usize, i: usize, j: usize) -> u32 {
    // SAFETY: as said above.
    unsafe { ups_vertex_refusal(net.as_ptr(), net.len(), w, h, i, j) }
}

#[inline]
pub(crate) fn bezier_net(
    net: &[i32],
    w: usize,
    h: usize,
    i: usize,
    j: usize,
    down: u32,
    out: &mut [i32],
) -> u32 {
    let (to, room) = (out.as_mut_ptr(), out.len());
    // SAFETY: as said above.
    unsafe { ups_bezier_net(net.as_ptr(), net.len(), w, h, i, j, down, to, room) }
}

#[inline]
pub(crate) fn surface_point(
    net: &[i32],
    w: usize,
    h: usize,
    p: usize,
    q: usize,
    out: &mut [i32],
) -> u32 {
    let (to, room) = (out.as_mut_ptr(), out.len());
    // SAFETY: as said above.
    unsafe { ups_surface_point(net.as_ptr(), net.len(), w, h, p, q, to, room) }
}

#[inline]
pub(crate) fn view_point(
    net: &[i32],
    w: usize,
    h: usize,
    p: usize,
    q: usize,
    out: &mut [f64],
) -> u32 {
    let (to, room) = (out.as_mut_ptr(), out.len());
    // SAFETY: as said above.
    unsafe { ups_view_point(net.as_ptr(), net.len(), w, h, p, q, to, room) }
}

#[inline]
pub(crate) fn write(net: &[i32], w: usize, h: usize, out: &mut [u8], written: &mut [u64]) -> u32 {
    let (to, room) = (out.as_mut_ptr(), out.len());
    let (count, counts) = (written.as_mut_ptr(), written.len());
    // SAFETY: as said above.
    unsafe { ups_write(net.as_ptr(), net.len(), w, h, to, room, count, counts) }
}

#[inline]
pub(crate) fn read(file: &[u8], net: &mut [i32], size: &mut [u64]) -> u32 {
    let (to, room) = (net.as_mut_ptr(), net.len());
    let (sides, count) = (size.as_mut_ptr(), size.len());
    // SAFETY: as said above.
    unsafe { ups_read(file.as_ptr(), file.len(), to, room, sides, count) }
}

#[inline]
pub(crate) fn refine(
    net: &[i32],
    w: usize,
    h: usize,
    k: usize,
    out: &mut [i32],
    scratch: &mut [i32],
) -> u32 {
    let (at, len) = (net.as_ptr(), net.len());
    let (to, room) = (out.as_mut_ptr(), out.len());
    let (by, by_len) = (scratch.as_mut_ptr(), scratch.len());
    // SAFETY: as said above.
    unsafe { ups_refine(at, len, w, h, k, to, room, by, by_len) }
}

#[inline]
pub(crate) fn refined_point(
    net: &[i32],
    w: usize,
    h: usize,
    k: usize,
    p: usize,
    q: usize,
    out: &mut [i32],
    scratch: &mut [i32],
    point: &mut [i32],
) -> u32 {
    // SAFETY: as said above.
    unsafe {
        ups_refined_point(
            net.as_ptr(),
            net.len(),
            w,
            h,
            k,
            p,
            q,
            out.as_mut_ptr(),
            out.len(),
            scratch.as_mut_ptr(),
            scratch.len(),
            point.as_mut_ptr(),
            point.len(),
        )
    }
}

#[inline]
pub(crate) fn seam_points(
    net: &[i32],
    w: usize,
    h: usize,
    k: usize,
    l: usize,
    p: usize,
    q: usize,
    p2: usize,
    q2: usize,
    out: &mut [i32],
    scratch: &mut [i32],
    out2: &mut [i32],
    scratch2: &mut [i32],
    points: &mut [i32],
) -> u32 {
    let (at, len) = (net.as_ptr(), net.len());
    let (to, room) = (out.as_mut_ptr(), out.len());
    let (by, by_len) = (scratch.as_mut_ptr(), scratch.len());
    let (to2, room2) = (out2.as_mut_ptr(), out2.len());
    let (by2, by2_len) = (scratch2.as_mut_ptr(), scratch2.len());
    let (both, both_len) = (points.as_mut_ptr(), points.len());
    // SAFETY: as said above.
    unsafe {
        ups_seam_points(
            at, len, w, h, k, l, p, q, p2, q2, to, room, by, by_len, to2, room2, by2, by2_len,
            both, both_len,
        )
    }
}

#[inline]
pub(crate) fn check_outline(outline: &[u8], w: usize, h: usize, search: &mut [u32]) -> u32 {
    let (by, by_len) = (search.as_mut_ptr(), search.len());
    // SAFETY: as said above.
    unsafe { ups_check_outline(outline.as_ptr(), outline.len(), w, h, by, by_len) }
}

#[inline]
pub(crate) fn bezier_net_outlined(
    net: &[i32],
    w: usize,
    h: usize,
    outline: &[u8],
    i: usize,
    j: usize,
    down: u32,
    out: &mut [i32],
) -> u32 {
    let (at, len) = (net.as_ptr(), net.len());
    let (on, on_len) = (outline.as_ptr(), outline.len());
    let (to, room) = (out.as_mut_ptr(), out.len());
    // SAFETY: as said above.
    unsafe { ups_bezier_net_outlined(at, len, w, h, on, on_len, i, j, down, to, room) }
}

#[inline]
pub(crate) fn surface_point_outlined(
    net: &[i32],
    w: usize,
    h: usize,
    outline: &[u8],
    p: usize,
    q: usize,
    out: &mut [i32],
) -> u32 {
    let (at, len) = (net.as_ptr(), net.len());
    let (on, on_len) = (outline.as_ptr(), outline.len());
    let (to, room) = (out.as_mut_ptr(), out.len());
    // SAFETY: as said above.
    unsafe { ups_surface_point_outlined(at, len, w, h, on, on_len, p, q, to, room) }
}

#[inline]
pub(crate) fn view_point_outlined(
    net: &[i32],
    w: usize,
    h: usize,
    outline: &[u8],
    p: usize,
    q: usize,
    out: &mut [f64],
) -> u32 {
    let (at, len) = (net.as_ptr(), net.len());
    let (on, on_len) = (outline.as_ptr(), outline.len());
    let (to, room) = (out.as_mut_ptr(), out.len());
    // SAFETY: as said above.
    unsafe { ups_view_point_outlined(at, len, w, h, on, on_len, p, q, to, room) }
}

#[inline]
pub(crate) fn refine_outlined(
    net: &[i32],
    w: usize,
    h: usize,
    k: usize,
    outline: &[u8],
    out: &mut [i32],
    scratch: &mut [i32],
    fine: &mut [u8],
    search: &mut [u32],
) -> u32 {
    // SAFETY: as said above.
    unsafe {
        ups_refine_outlined(
            net.as_ptr(),
            net.len(),
            w,
            h,
            k,
            outline.as_ptr(),
            outline.len(),
            out.as_mut_ptr(),
            out.len(),
            scratch.as_mut_ptr(),
            scratch.len(),
            fine.as_mut_ptr(),
            fine.len(),
            search.as_mut_ptr(),
            search.len(),
        )
    }
}

#[inline]
pub(crate) fn refined_point_outlined(
    net: &[i32],
    w: usize,
    h: usize,
    k: usize,
    outline: &[u8],
    p: usize,
    q: usize,
    out: &mut [i32],
    scratch: &mut [i32],
    fine: &mut [u8],
    search: &mut [u32],
    point: &mut [i32],
) -> u32 {
    // SAFETY: as said above.
    unsafe {
        ups_refined_point_outlined(
            net.as_ptr(),
            net.len(),
            w,
            h,
            k,
            outline.as_ptr(),
            outline.len(),
            p,
            q,
            out.as_mut_ptr(),
            out.len(),
            scratch.as_mut_ptr(),
            scratch.len(),
            fine.as_mut_ptr(),
            fine.len(),
            search.as_mut_ptr(),
            search.len(),
            point.as_mut_ptr(),
            point.len(),
        )
    }
}

#[inline]
pub(crate) fn split(
    net: &[i32],
    w: usize,
    h: usize,
    coarse: &mut [i32],
    details: &mut [i32],
) -> u32 {
    let (at, len) = (net.as_ptr(), net.len());
    let (to, room) = (coarse.as_mut_ptr(), coarse.len());
    let (rest, rest_len) = (details.as_mut_ptr(), details.len());
    // SAFETY: as said above.
    unsafe { ups_split(at, len, w, h, to, room, rest, rest_len) }
}

#[inline]
pub(crate) fn merge(coarse: &[i32], details: &[i32], w: usize, h: usize, out: &mut [i32]) -> u32 {
    let (at, len) = (coarse.as_ptr(), coarse.len());
    let (with, with_len) = (details.as_ptr(), details.len());
    let (to, room) = (out.as_mut_ptr(), out.len());
    // SAFETY: as said above.
    unsafe { ups_merge(at, len, with, with_len, w, h, to, room) }
}

#[inline]
pub(crate) fn clean(details: &mut [i32], w: usize, h: usize, t: u32) -> u32 {
    // SAFETY: as said above.
    unsafe { ups_clean(details.as_mut_ptr(), details.len(), w, h, t) }
}

#[inline]
pub(crate) fn from_points(given: &[i32], w: usize, h: usize, out: &mut [i32]) -> u32 {
    let (to, room) = (out.as_mut_ptr(), out.len());
    // SAFETY: as said above.
    unsafe { ups_from_points(given.as_ptr(), given.len(), w, h, to, room) }
}
