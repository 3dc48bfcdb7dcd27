//! The net file in plain Rust, to compare the library with.

use crate::plain::{check_lengths, check_size, in_range, Refusal, POINT_RECORD};
use ups::{file_bytes, net_numbers};

const WIDTH: u32 = 1;
const HEIGHT: u32 = 2;
/// The kinds of a control point's words.
pub const POINT: [u32; 3] = [3, 4, 5];
pub const END: u32 = 6;
pub const PAYLOAD: u32 = 0x0fff_ffff;
/// Bytes of a word.
pub const WORD: usize = 4;

/// The count of control points of a net.
fn points((w, h): (usize, usize)) -> usize {
    3 * w * h
}

pub fn word(kind: u32, payload: u32) -> [u8; WORD] {
    (kind << 28 | payload & PAYLOAD).to_be_bytes()
}

#[inline(never)]
pub fn write(
    net: &[i32],
    (w, h): (usize, usize),
    out: &mut [u8],
    written: &mut [u64],
) -> Result<(), Refusal> {
    write_with(
        net,
        (w, h),
        out,
        written,
        |net| net.iter().all(in_range),
        put,
    )
}

/// The words of the numbers, one by one.
fn put(words: &mut [u8], net: &[i32]) {
    let targets = words.chunks_exact_mut(WORD * POINT.len());
    for (bytes, point) in targets.zip(net.chunks_exact(POINT_RECORD)) {
        for ((bytes, &x), kind) in bytes.chunks_exact_mut(WORD).zip(point).zip(POINT) {
            bytes.copy_from_slice(&word(kind, x as u32));
        }
    }
}

/// Writes with a test of the range of all numbers, and what stores their words.
#[inline(always)]
pub fn write_with(
    net: &[i32],
    (w, h): (usize, usize),
    out: &mut [u8],
    written: &mut [u64],
    fits: impl Fn(&[i32]) -> bool,
    put: impl Fn(&mut [u8], &[i32]),
) -> Result<(), Refusal> {
    check_size(w, h)?;
    let len = file_bytes(w, h);
    check_lengths(net, (w, h), out.len(), len)?;
    let written = written.first_mut().ok_or(5_u32)?;
    let net = &net[..net_numbers(w, h)];
    if !fits(net) {
        return Err(3);
    }
    let (sides, rest) = out[..len].split_at_mut(2 * WORD);
    let (words, end) = rest.split_at_mut(WORD * POINT.len() * points((w, h)));
    sides[..WORD].copy_from_slice(&word(WIDTH, w as u32));
    sides[WORD..].copy_from_slice(&word(HEIGHT, h as u32));
    put(words, net);
    end.copy_from_slice(&word(END, 0));
    *written = len as u64;
    Ok(())
}

/// The payload of the next word, which must have this kind, and the bytes after the word.
fn next(file: &[u8], kind: u32) -> Result<(u32, &[u8]), Refusal> {
    let (bytes, rest) = file.split_first_chunk().ok_or(7_u32)?;
    let word = u32::from_be_bytes(*bytes);
    if word >> 28 != kind {
        return Err(8);
    }
    Ok((word & PAYLOAD, rest))
}

fn next_side(file: &[u8], kind: u32) -> Result<(usize, &[u8]), Refusal> {
    let (side, rest) = next(file, kind)?;
    if !(2..=1025).contains(&side) {
        return Err(1);
    }
    Ok((side as usize, rest))
}

/// The number of a word: its lower 28 bits in two's complement.
fn number(word: u32) -> i32 {
    (word << 4) as i32 >> 4
}

/// The bytes after the words of the control points and the end word, all of which are looked at.
fn after_end(words: &[u8], points: usize) -> Result<&[u8], Refusal> {
    let mut rest = words;
    for _ in 0..points {
        for kind in POINT {
            let (payload, after) = next(rest, kind)?;
            if !in_range(&number(payload)) {
                return Err(3);
            }
            rest = after;
        }
    }
    match next(rest, END)? {
        (0, rest) => Ok(rest),
        _ => Err(8),
    }
}

/// Refuses what is not the words of so many control points and the end word.
pub fn check_words(words: &[u8], points: usize) -> Result<(), Refusal> {
    if after_end(words, points)?.is_empty() {
        Ok(())
    } else {
        Err(9)
    }
}

#[inline(never)]
pub fn read(file: &[u8], net: &mut [i32], size: &mut [u64]) -> Result<(), Refusal> {
    read_with(file, net, size, check_words)
}

/// Reads with a check of all words after the sides, of so many control points.
#[inline(always)]
pub fn read_with(
    file: &[u8],
    net: &mut [i32],
    size: &mut [u64],
    check_words: impl Fn(&[u8], usize) -> Result<(), Refusal>,
) -> Result<(), Refusal> {
    let (w, rest) = next_side(file, WIDTH)?;
    let (h, words) = next_side(rest, HEIGHT)?;
    let count = net_numbers(w, h);
    if net.len() < count || size.len() < 2 {
        return Err(5);
    }
    // The whole file is looked through before the first number is stored.
    check_words(words, points((w, h)))?;
    // The net's numbers are the words of its control points, one after the other.
    for (x, bytes) in net[..count].iter_mut().zip(words.as_chunks().0) {
        *x = number(u32::from_be_bytes(*bytes));
    }
    size[..2].copy_from_slice(&[w as u64, h as u64]);
    Ok(())
}
