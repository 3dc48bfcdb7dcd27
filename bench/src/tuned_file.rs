//! The net file in tuned Rust, to compare the library with. What is tuned is taken from the
//! library's own ways of testing: the range of numbers, and the kinds and ranges of words, are
//! tested without an early end, several at once, and words are formed so too. A file that has a
//! fault is looked through again, word by word.

use crate::plain::{Refusal, LIMIT};
use crate::plain_file::{check_words, read_with, word, write_with, END, PAYLOAD, POINT, WORD};
use crate::plain_multiresolution::all_within;
use crate::plain_refine::Size;

/// Words that are formed or tested together: those of four control points, so that the compiler
/// takes several at once and the kinds begin anew after them.
const TOGETHER: usize = 12;

#[inline(never)]
pub fn write(net: &[i32], size: Size, out: &mut [u8], written: &mut [u64]) -> Result<(), Refusal> {
    write_with(
        net,
        size,
        out,
        written,
        |net| all_within(LIMIT, net),
        put_all,
    )
}

fn put_all(words: &mut [u8], net: &[i32]) {
    let (many, rest) = words.as_chunks_mut().0.as_chunks_mut();
    let (numbers, last) = net.as_chunks();
    put::<TOGETHER>(many, numbers);
    put::<{ POINT.len() }>(rest.as_chunks_mut().0, last.as_chunks().0);
}

/// The words of the numbers, N at a time.
fn put<const N: usize>(words: &mut [[[u8; WORD]; N]], numbers: &[[i32; N]]) {
    for (words, numbers) in words.iter_mut().zip(numbers) {
        for (n, (bytes, &x)) in words.iter_mut().zip(numbers).enumerate() {
            *bytes = word(POINT[n % POINT.len()], x as u32);
        }
    }
}

/// Whether the words are of the kinds that are due, and their numbers in range. It goes through
/// all of them, N at a time.
fn good<const N: usize>(words: &[[[u8; WORD]; N]]) -> bool {
    let mut faults = 0;
    for words in words {
        for (n, &bytes) in words.iter().enumerate() {
            // With the kind that is due taken off, no bits are left above the payload.
            let payload = u32::from_be_bytes(bytes).wrapping_sub(POINT[n % POINT.len()] << 28);
            let raised = (payload.wrapping_add(LIMIT as u32) & PAYLOAD) as i32;
            faults |= payload >> 28 | u32::from(raised > 2 * LIMIT);
        }
    }
    faults == 0
}

/// Whether these are the words of so many numbers and the end word, and no fault is in them.
fn faultless(words: &[u8], count: usize) -> bool {
    if words.len() != WORD * (count + 1) {
        return false;
    }
    let (words, end) = words.split_at(WORD * count);
    let (many, rest) = words.as_chunks().0.as_chunks();
    end == word(END, 0) && good::<TOGETHER>(many) && good::<{ POINT.len() }>(rest.as_chunks().0)
}

#[inline(never)]
pub fn read(file: &[u8], net: &mut [i32], size: &mut [u64]) -> Result<(), Refusal> {
    read_with(file, net, size, |words, points| {
        if faultless(words, POINT.len() * points) {
            Ok(())
        } else {
            check_words(words, points)
        }
    })
}
