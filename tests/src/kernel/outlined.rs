//! The calls with an outline.

use super::{count, Junk, Lent, LentNet, Number, Output, Refining, Room};
use crate::oracle::{BEZIER_NUMBERS, POINT_NUMBERS};
use crate::outlines::{self, Lengths};
use ups::raw;

type Size = (usize, usize);

pub type LentOutline = Lent<u8>;

/// What is lent to refining with an outline, and what lies there before.
#[derive(Clone, Copy, Debug)]
pub struct DoorRoom {
    pub plain: Room,
    pub fine_len: usize,
    pub fine_junk: Junk<u8>,
    pub search_len: usize,
    pub search_junk: Junk<u32>,
}

impl DoorRoom {
    pub fn new(lengths: Lengths) -> Self {
        DoorRoom {
            plain: Room::new(lengths.out, lengths.scratch),
            fine_len: lengths.fine,
            fine_junk: u8::canary,
            search_len: lengths.search,
            search_junk: u32::canary,
        }
    }

    /// As long as k steps need, and longer by `extra`.
    pub fn of_steps(size: Size, k: usize, extra: usize) -> Self {
        let plain = Room::of_steps(size, k, extra);
        DoorRoom::new(Lengths {
            out: plain.out_len,
            scratch: plain.scratch_len,
            fine: outlines::fine_triangles(size, k).expect("a length") + extra,
            search: outlines::triangles(size).expect("a length") + extra,
        })
    }
}

/// A refined net with its outline, and a surface point where one was asked for.
#[derive(Clone, Debug, PartialEq, Eq)]
pub struct RefinedDoor {
    pub numbers: Vec<i32>,
    pub outline: Vec<u8>,
    pub point: Option<[i32; POINT_NUMBERS]>,
}

/// What refining with an outline is lent.
pub(crate) struct RefiningDoor {
    pub(crate) plain: Refining,
    pub(crate) fine: Output<u8>,
    pub(crate) search: Output<u32>,
}

impl RefiningDoor {
    pub(crate) fn new(room: DoorRoom) -> Self {
        RefiningDoor {
            plain: Refining::new(room.plain),
            fine: Output::over(room.fine_len, room.fine_junk),
            search: Output::over(room.search_len, room.search_junk),
        }
    }

    /// The refined door when accepted, without a point. What is free is not looked at.
    pub(crate) fn result(&self, refusal: u32, size: Size, k: usize) -> Result<RefinedDoor, u32> {
        self.search.check_search(refusal, size);
        let fine_len = count(outlines::fine_triangles(size, k));
        // Both are checked before a refusal is handed back.
        let outline = self.fine.front(refusal, fine_len);
        let numbers = self.plain.result(refusal, size, k);
        Ok(RefinedDoor {
            numbers: numbers?,
            outline: outline?.to_vec(),
            point: None,
        })
    }
}

impl Output<u32> {
    /// Of a search: as many numbers as there are triangles are free where the call came to
    /// connectedness, so where it is accepted or refused by 14 or, after that, by 3.
    pub(crate) fn check_search(&self, refusal: u32, size: Size) {
        let searched = [0, 14, 3].contains(&refusal);
        let free = if searched {
            count(outlines::triangles(size))
        } else {
            0
        };
        self.unchanged_but(refusal, free);
    }
}

impl LentOutline {
    /// The refusal, 0 for none.
    pub fn check_outline(&self, (w, h): Size, search_len: usize, junk: Junk<u32>) -> u32 {
        let mut search = Output::over(search_len, junk);
        let (outline, len) = (self.pointer(), self.numbers.len());
        let to = search.pointer();
        // SAFETY: `len` bytes and `search_len` numbers are lent.
        let refusal = unsafe { raw::ups_check_outline(outline, len, w, h, to, search_len) };
        self.check();
        search.check_search(refusal, (w, h));
        refusal
    }
}

impl LentNet {
    pub fn bezier_net_outlined(
        &self,
        outline: &LentOutline,
        (w, h): Size,
        (i, j): Size,
        down: u32,
        out_len: usize,
    ) -> Result<[i32; BEZIER_NUMBERS], u32> {
        let mut out = Output::<i32>::new(out_len);
        let (net, len) = (self.pointer(), self.numbers.len());
        let (on, on_len) = (outline.pointer(), outline.numbers.len());
        let to = out.pointer();
        // SAFETY: `len` numbers, `on_len` bytes and `out_len` numbers are lent.
        let refusal = unsafe {
            raw::ups_bezier_net_outlined(net, len, w, h, on, on_len, i, j, down, to, out_len)
        };
        self.check();
        outline.check();
        out.result(refusal)
    }

    pub fn surface_point_outlined(
        &self,
        outline: &LentOutline,
        (w, h): Size,
        (p, q): Size,
        out_len: usize,
    ) -> Result<[i32; POINT_NUMBERS], u32> {
        let mut out = Output::<i32>::new(out_len);
        let (net, len) = (self.pointer(), self.numbers.len());
        let (on, on_len) = (outline.pointer(), outline.numbers.len());
        let to = out.pointer();
        // SAFETY: `len` numbers, `on_len` bytes and `out_len` numbers are lent.
        let refusal = unsafe {
            raw::ups_surface_point_outlined(net, len, w, h, on, on_len, p, q, to, out_len)
        };
        self.check();
        outline.check();
        out.result(refusal)
    }

    /// The bits of the doubles.
    pub fn view_point_outlined(
        &self,
        outline: &LentOutline,
        (w, h): Size,
        (p, q): Size,
        out_len: usize,
    ) -> Result<[u64; POINT_NUMBERS], u32> {
        let mut out = Output::<f64>::new(out_len);
        let (net, len) = (self.pointer(), self.numbers.len());
        let (on, on_len) = (outline.pointer(), outline.numbers.len());
        let to = out.pointer();
        // SAFETY: `len` numbers, `on_len` bytes and `out_len` doubles are lent.
        let refusal =
            unsafe { raw::ups_view_point_outlined(net, len, w, h, on, on_len, p, q, to, out_len) };
        self.check();
        outline.check();
        Ok(out.result(refusal)?.map(f64::to_bits))
    }

    /// The net after k steps and its outline.
    pub fn refine_outlined(
        &self,
        outline: &LentOutline,
        (w, h): Size,
        k: usize,
        room: DoorRoom,
    ) -> Result<RefinedDoor, u32> {
        let mut lent = RefiningDoor::new(room);
        // SAFETY: each slice is lent with its length.
        let refusal = unsafe {
            raw::ups_refine_outlined(
                self.pointer(),
                self.numbers.len(),
                w,
                h,
                k,
                outline.pointer(),
                outline.numbers.len(),
                lent.plain.out.pointer(),
                room.plain.out_len,
                lent.plain.scratch.pointer(),
                room.plain.scratch_len,
                lent.fine.pointer(),
                room.fine_len,
                lent.search.pointer(),
                room.search_len,
            )
        };
        self.check();
        outline.check();
        lent.result(refusal, (w, h), k)
    }

    /// The net after k steps, its outline, and its surface point at a place of its grid.
    pub fn refined_point_outlined(
        &self,
        outline: &LentOutline,
        (w, h): Size,
        k: usize,
        (p, q): Size,
        room: DoorRoom,
        point_len: usize,
    ) -> Result<RefinedDoor, u32> {
        let mut lent = RefiningDoor::new(room);
        let mut point = Output::<i32>::new(point_len);
        // SAFETY: each slice is lent with its length.
        let refusal = unsafe {
            raw::ups_refined_point_outlined(
                self.pointer(),
                self.numbers.len(),
                w,
                h,
                k,
                outline.pointer(),
                outline.numbers.len(),
                p,
                q,
                lent.plain.out.pointer(),
                room.plain.out_len,
                lent.plain.scratch.pointer(),
                room.plain.scratch_len,
                lent.fine.pointer(),
                room.fine_len,
                lent.search.pointer(),
                room.search_len,
                point.pointer(),
                point_len,
            )
        };
        self.check();
        outline.check();
        let point = point.result(refusal);
        let door = lent.result(refusal, (w, h), k)?;
        let point = Some(point?);
        Ok(RefinedDoor { point, ..door })
    }
}
