//! The library's calls with guarded memory.
//!
//! Every lent slice lies between canary values. After each call the wrappers assert that the
//! canaries and every input are unchanged, that a refusal left every output, and the details
//! lent to clean, unchanged bit for bit, and that an accepted call left everything behind its
//! result, and behind what is free of a scratch or of a search, unchanged. `outlined` has the calls
//! with an outline, `seam` the points of a seam.

mod outlined;
mod seam;

use crate::hermite;
use crate::multiresolution::{self, Split};
use crate::netfile::FileNet;
use crate::oracle::{BEZIER_NUMBERS, POINT_NUMBERS};
use crate::pages::{Pages, Side};
use crate::random::mix;
use crate::record;
use crate::refinement;
pub(crate) use outlined::RefiningDoor;
pub use outlined::{DoorRoom, LentOutline, RefinedDoor};
pub(crate) use seam::LentSides;
use std::cell::RefCell;
use std::ops::Range;
use ups::raw;

/// Canary values on each side of a lent slice.
const GUARD: usize = 128;

/// A number that can be lent, with a canary value for each position.
pub trait Number: Copy {
    fn canary(position: usize) -> Self;
    fn bits(self) -> u64;
}

impl Number for u8 {
    fn canary(position: usize) -> Self {
        mix(position as u64 + 1) as u8
    }

    fn bits(self) -> u64 {
        u64::from(self)
    }
}

impl Number for i32 {
    fn canary(position: usize) -> Self {
        mix(position as u64 + 1) as i32
    }

    fn bits(self) -> u64 {
        u64::from(self as u32)
    }
}

impl Number for u32 {
    fn canary(position: usize) -> Self {
        mix(position as u64 + 1) as u32
    }

    fn bits(self) -> u64 {
        u64::from(self)
    }
}

impl Number for u64 {
    fn canary(position: usize) -> Self {
        mix(position as u64 + 1)
    }

    fn bits(self) -> u64 {
        self
    }
}

impl Number for f64 {
    // Any bit pattern, not-a-numbers as well.
    fn canary(position: usize) -> Self {
        f64::from_bits(mix(position as u64 + 1))
    }

    fn bits(self) -> u64 {
        self.to_bits()
    }
}

/// What lies at each position of a lent output and of its guards before the call.
pub type Junk<T> = fn(usize) -> T;

/// A lent output, with what lay there before the call.
pub(crate) struct Output<T> {
    memory: Vec<T>,
    before: Vec<T>,
    len: usize,
}

impl<T: Number> Output<T> {
    /// Filled with canary values as well.
    pub(crate) fn new(len: usize) -> Self {
        Self::over(len, T::canary)
    }

    fn over(len: usize, junk: Junk<T>) -> Self {
        Self::guarded((0..len + 2 * GUARD).map(junk).collect())
    }

    /// Filled with these numbers.
    pub(crate) fn holding(numbers: &[T]) -> Self {
        Self::guarded(between_canaries(numbers))
    }

    /// The memory with its guards.
    fn guarded(memory: Vec<T>) -> Self {
        Output {
            before: memory.clone(),
            len: memory.len() - 2 * GUARD,
            memory,
        }
    }

    fn pointer(&mut self) -> *mut T {
        self.slice().as_mut_ptr()
    }

    /// What is lent, without the guards.
    pub(crate) fn slice(&mut self) -> &mut [T] {
        &mut self.memory[GUARD..GUARD + self.len]
    }

    /// The first `count` numbers when accepted; checks everything that must not have changed.
    pub(crate) fn front(&self, refusal: u32, count: usize) -> Result<&[T], u32> {
        let written = if refusal == 0 { count } else { 0 };
        let result = self.unchanged_but(refusal, written);
        match refusal {
            0 => Ok(&self.memory[result]),
            number => Err(number),
        }
    }

    /// Checks that nothing but the first `free` numbers has changed. Hands their range back.
    fn unchanged_but(&self, refusal: u32, free: usize) -> Range<usize> {
        assert!(free <= self.len, "{refusal} with a short output");
        let free = GUARD..GUARD + free;
        for (position, (x, before)) in self.memory.iter().zip(&self.before).enumerate() {
            if !free.contains(&position) && x.bits() != before.bits() {
                let at = position as i64 - GUARD as i64;
                panic!("refusal {refusal}: output position {at} changed");
            }
        }
        free
    }

    pub(crate) fn result<const N: usize>(&self, refusal: u32) -> Result<[T; N], u32> {
        let front = self.front(refusal, N)?;
        Ok(std::array::from_fn(|n| front[n]))
    }
}

fn between_canaries<T: Number>(numbers: &[T]) -> Vec<T> {
    let mut memory: Vec<T> = (0..GUARD).map(T::canary).collect();
    memory.extend_from_slice(numbers);
    memory.extend((0..GUARD).map(T::canary));
    memory
}

/// A count of numbers in an output; without a length no output is long enough.
pub(crate) fn count(needed: Option<usize>) -> usize {
    needed.unwrap_or(usize::MAX)
}

/// The lengths of `out` and of the scratch lent to a refinement, and what lies there before.
#[derive(Clone, Copy, Debug)]
pub struct Room {
    pub out_len: usize,
    pub scratch_len: usize,
    pub junk: Junk<i32>,
}

impl Room {
    pub fn new(out_len: usize, scratch_len: usize) -> Self {
        Room {
            out_len,
            scratch_len,
            junk: i32::canary,
        }
    }

    /// As long as k steps need, and longer by `extra`.
    pub fn of_steps(size: (usize, usize), k: usize, extra: usize) -> Self {
        let out_len = refinement::refined_len(size, k).expect("a length");
        let scratch_len = refinement::scratch_len(size, k).expect("a length");
        Room::new(out_len + extra, scratch_len + extra)
    }
}

/// `out` and the scratch of a refinement.
pub(crate) struct Refining {
    pub(crate) out: Output<i32>,
    pub(crate) scratch: Output<i32>,
}

impl Refining {
    pub(crate) fn new(room: Room) -> Self {
        Refining {
            out: Output::over(room.out_len, room.junk),
            scratch: Output::over(room.scratch_len, room.junk),
        }
    }

    /// The refined net when accepted. The scratch numbers that are free are not looked at.
    pub(crate) fn result(
        &self,
        refusal: u32,
        size: (usize, usize),
        k: usize,
    ) -> Result<Vec<i32>, u32> {
        let scratch_len = count(refinement::scratch_len(size, k));
        let refined_len = count(refinement::refined_len(size, k));
        // Both are checked before a refusal is handed back.
        let free = self.scratch.front(refusal, scratch_len);
        let refined = self.out.front(refusal, refined_len);
        free.and(refined).map(<[i32]>::to_vec)
    }
}

/// A refined net and a surface point of it.
pub type RefinedPoint = (Vec<i32>, [i32; POINT_NUMBERS]);

enum Memory<T> {
    // In a cell, since the library gets a pointer into it and might write.
    Canaries(RefCell<Vec<T>>),
    Pages(Pages<T>),
}

/// A lent input.
pub struct Lent<T> {
    numbers: Vec<T>,
    memory: Memory<T>,
}

pub type LentNet = Lent<i32>;
pub type LentDetails = Lent<i32>;
pub type LentGiven = Lent<i32>;
pub type LentFile = Lent<u8>;

impl<T: Number + PartialEq> Lent<T> {
    /// Lends the numbers between canary values.
    pub fn new(numbers: &[T]) -> Self {
        Lent {
            numbers: numbers.to_vec(),
            memory: Memory::Canaries(RefCell::new(between_canaries(numbers))),
        }
    }

    /// Lends the numbers in read-only pages, next to an inaccessible page on one side.
    pub fn in_pages(numbers: &[T], side: Side) -> Self {
        Lent {
            numbers: numbers.to_vec(),
            memory: Memory::Pages(Pages::new(numbers, side)),
        }
    }

    pub fn numbers(&self) -> &[T] {
        &self.numbers
    }

    fn pointer(&self) -> *const T {
        match &self.memory {
            Memory::Canaries(memory) => memory.borrow_mut()[GUARD..].as_mut_ptr(),
            Memory::Pages(pages) => pages.numbers().as_ptr(),
        }
    }

    fn check(&self) {
        match &self.memory {
            Memory::Canaries(memory) => {
                let memory = memory.borrow();
                let (front, rest) = memory.split_at(GUARD);
                let (numbers, back) = rest.split_at(self.numbers.len());
                assert!(numbers == self.numbers, "an input changed");
                for guard in [front, back] {
                    let canaries = (0..GUARD).map(T::canary);
                    assert!(
                        canaries.eq(guard.iter().copied()),
                        "an input's canary changed"
                    );
                }
            }
            Memory::Pages(pages) => assert!(pages.numbers() == self.numbers, "an input changed"),
        }
    }
}

impl LentNet {
    pub fn vertex_refusal(&self, w: usize, h: usize, i: usize, j: usize) -> u32 {
        let (net, len) = (self.pointer(), self.numbers.len());
        // SAFETY: `len` numbers are lent.
        let refusal = unsafe { raw::ups_vertex_refusal(net, len, w, h, i, j) };
        self.check();
        refusal
    }

    pub fn bezier_net(
        &self,
        (w, h): (usize, usize),
        (i, j): (usize, usize),
        down: u32,
        out_len: usize,
    ) -> Result<[i32; BEZIER_NUMBERS], u32> {
        let mut output = Output::<i32>::new(out_len);
        let (net, len) = (self.pointer(), self.numbers.len());
        // SAFETY: `len` numbers and `out_len` numbers are lent.
        let refusal =
            unsafe { raw::ups_bezier_net(net, len, w, h, i, j, down, output.pointer(), out_len) };
        self.check();
        output.result(refusal)
    }

    pub fn surface_point(
        &self,
        (w, h): (usize, usize),
        (p, q): (usize, usize),
        out_len: usize,
    ) -> Result<[i32; POINT_NUMBERS], u32> {
        let mut output = Output::<i32>::new(out_len);
        let (net, len) = (self.pointer(), self.numbers.len());
        // SAFETY: `len` numbers and `out_len` numbers are lent.
        let refusal =
            unsafe { raw::ups_surface_point(net, len, w, h, p, q, output.pointer(), out_len) };
        self.check();
        output.result(refusal)
    }

    /// The doubles are handed back as bits.
    pub fn view_point(
        &self,
        (w, h): (usize, usize),
        (p, q): (usize, usize),
        out_len: usize,
    ) -> Result<[u64; POINT_NUMBERS], u32> {
        let mut output = Output::<f64>::new(out_len);
        let (net, len) = (self.pointer(), self.numbers.len());
        // SAFETY: `len` numbers and `out_len` doubles are lent.
        let refusal =
            unsafe { raw::ups_view_point(net, len, w, h, p, q, output.pointer(), out_len) };
        self.check();
        output.result(refusal).map(|point| point.map(f64::to_bits))
    }

    /// The bytes of the net's file.
    pub fn write(
        &self,
        (w, h): (usize, usize),
        out_len: usize,
        written_len: usize,
    ) -> Result<Vec<u8>, u32> {
        let mut out = Output::<u8>::new(out_len);
        let mut written = Output::<u64>::new(written_len);
        let (net, len) = (self.pointer(), self.numbers.len());
        let (to, count) = (out.pointer(), written.pointer());
        // SAFETY: `len` numbers, `out_len` bytes and `written_len` numbers are lent.
        let refusal = unsafe { raw::ups_write(net, len, w, h, to, out_len, count, written_len) };
        self.check();
        let [count] = written.result(refusal).unwrap_or([0]);
        let bytes = out.front(refusal, count as usize)?;
        Ok(bytes.to_vec())
    }

    /// The numbers of the net after k steps.
    pub fn refine(&self, (w, h): (usize, usize), k: usize, room: Room) -> Result<Vec<i32>, u32> {
        let mut lent = Refining::new(room);
        let (net, len) = (self.pointer(), self.numbers.len());
        let (out, scratch) = (lent.out.pointer(), lent.scratch.pointer());
        let (out_len, scratch_len) = (room.out_len, room.scratch_len);
        // SAFETY: `len`, `out_len` and `scratch_len` numbers are lent.
        let refusal =
            unsafe { raw::ups_refine(net, len, w, h, k, out, out_len, scratch, scratch_len) };
        self.check();
        lent.result(refusal, (w, h), k)
    }

    /// The numbers of the net after k steps, and its surface point at a place of its grid.
    pub fn refined_point(
        &self,
        (w, h): (usize, usize),
        k: usize,
        (p, q): (usize, usize),
        room: Room,
        point_len: usize,
    ) -> Result<RefinedPoint, u32> {
        let mut lent = Refining::new(room);
        let mut point = Output::<i32>::new(point_len);
        let (net, len) = (self.pointer(), self.numbers.len());
        let (out, scratch) = (lent.out.pointer(), lent.scratch.pointer());
        let (out_len, scratch_len) = (room.out_len, room.scratch_len);
        let to = point.pointer();
        // SAFETY: `len`, `out_len`, `scratch_len` and `point_len` numbers are lent.
        let refusal = unsafe {
            raw::ups_refined_point(
                net,
                len,
                w,
                h,
                k,
                p,
                q,
                out,
                out_len,
                scratch,
                scratch_len,
                to,
                point_len,
            )
        };
        self.check();
        let point = point.result(refusal);
        Ok((lent.result(refusal, (w, h), k)?, point?))
    }

    /// The coarse net and the details of the net.
    pub fn split(
        &self,
        (w, h): (usize, usize),
        coarse_len: usize,
        details_len: usize,
    ) -> Result<Split, u32> {
        let mut coarse = Output::<i32>::new(coarse_len);
        let mut details = Output::<i32>::new(details_len);
        let (net, len) = (self.pointer(), self.numbers.len());
        let (to, rest) = (coarse.pointer(), details.pointer());
        // SAFETY: `len`, `coarse_len` and `details_len` numbers are lent.
        let refusal = unsafe { raw::ups_split(net, len, w, h, to, coarse_len, rest, details_len) };
        self.check();
        // Both are checked before a refusal is handed back.
        let coarse = coarse.front(refusal, count(multiresolution::coarse_len((w, h))));
        let details = details.front(refusal, count(multiresolution::details_len((w, h))));
        Ok(Split {
            coarse: coarse?.to_vec(),
            details: details?.to_vec(),
        })
    }

    /// The numbers of the net that this coarse net and the details make.
    pub fn merge(
        &self,
        details: &LentDetails,
        (w, h): (usize, usize),
        out_len: usize,
    ) -> Result<Vec<i32>, u32> {
        let mut out = Output::<i32>::new(out_len);
        let (coarse, len) = (self.pointer(), self.numbers.len());
        let (rest, details_len) = (details.pointer(), details.numbers.len());
        let to = out.pointer();
        // SAFETY: `len`, `details_len` and `out_len` numbers are lent.
        let refusal = unsafe { raw::ups_merge(coarse, len, rest, details_len, w, h, to, out_len) };
        self.check();
        details.check();
        let merged = out.front(refusal, count(refinement::refined_len((w, h), 1)))?;
        Ok(merged.to_vec())
    }

    /// The numbers of the net through these given points.
    pub fn from_points(&self, (w, h): (usize, usize), out_len: usize) -> Result<Vec<i32>, u32> {
        let mut out = Output::<i32>::new(out_len);
        let (given, len) = (self.pointer(), self.numbers.len());
        // SAFETY: `len` and `out_len` numbers are lent.
        let refusal = unsafe { raw::ups_from_points(given, len, w, h, out.pointer(), out_len) };
        self.check();
        let net = out.front(refusal, count(hermite::net_len((w, h))))?;
        Ok(net.to_vec())
    }
}

/// The details of a net of this size after cleaning. What is lent is a copy of them.
pub fn clean(details: &[i32], (w, h): (usize, usize), t: u32) -> Result<Vec<i32>, u32> {
    let mut lent = Output::holding(details);
    let (to, len) = (lent.pointer(), details.len());
    // SAFETY: `len` numbers are lent.
    let refusal = unsafe { raw::ups_clean(to, len, w, h, t) };
    let cleaned = lent.front(refusal, count(multiresolution::details_len((w, h))))?;
    Ok(cleaned.to_vec())
}

impl LentFile {
    /// The file's net.
    pub fn read(&self, net_len: usize, size_len: usize) -> Result<FileNet, u32> {
        let mut net = Output::<i32>::new(net_len);
        let mut size = Output::<u64>::new(size_len);
        let (file, len) = (self.pointer(), self.numbers.len());
        let (to, sides) = (net.pointer(), size.pointer());
        // SAFETY: `len` bytes, `net_len` numbers and `size_len` numbers are lent.
        let refusal = unsafe { raw::ups_read(file, len, to, net_len, sides, size_len) };
        self.check();
        let [w, h] = size.result(refusal).unwrap_or([0, 0]).map(|x| x as usize);
        let size = (w, h);
        let numbers = net.front(refusal, record::numbers(size))?.to_vec();
        Ok(FileNet { size, numbers })
    }
}
