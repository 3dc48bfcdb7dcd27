//! Slices of length 0, with a null pointer and with one that points nowhere.

use std::ptr::{self, NonNull};

/// How a slice is lent.
#[derive(Clone, Copy, Debug)]
pub enum Lend {
    Whole,
    Null,
    Nowhere,
}

const LEND: [Lend; 3] = [Lend::Whole, Lend::Null, Lend::Nowhere];

impl Lend {
    /// The numbers that are lent.
    pub fn of<T>(self, numbers: &[T]) -> &[T] {
        match self {
            Lend::Whole => numbers,
            Lend::Null | Lend::Nowhere => &[],
        }
    }

    pub fn input<T>(self, numbers: &[T]) -> (*const T, usize) {
        match self {
            Lend::Whole => (numbers.as_ptr(), numbers.len()),
            Lend::Null => (ptr::null(), 0),
            Lend::Nowhere => (NonNull::dangling().as_ptr(), 0),
        }
    }

    pub fn output<T>(self, numbers: &mut [T]) -> (*mut T, usize) {
        match self {
            Lend::Whole => (numbers.as_mut_ptr(), numbers.len()),
            Lend::Null => (ptr::null_mut(), 0),
            Lend::Nowhere => (NonNull::dangling().as_ptr(), 0),
        }
    }
}

/// Every way to lend `N` slices.
pub fn ways<const N: usize>() -> impl Iterator<Item = [Lend; N]> {
    (0..LEND.len().pow(N as u32)).map(|way| {
        std::array::from_fn(|slice| LEND[way / LEND.len().pow(slice as u32) % LEND.len()])
    })
}
