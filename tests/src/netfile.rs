//! The net file in the plainest way, word by word over a list of bytes.

use crate::oracle::{self, Faults, LIMIT};
use crate::record::{self, Control, POINT_RECORD};

pub const WIDTH: u32 = 1;
pub const HEIGHT: u32 = 2;
pub const X: u32 = 3;
pub const Y: u32 = 4;
pub const Z: u32 = 5;
pub const END: u32 = 6;

/// Bytes of a word.
pub const WORD_BYTES: usize = 4;
/// Words of a control point, whatever a net stores for it.
pub const POINT_WORDS: usize = 3;
/// Their kinds.
const POINT: [u32; POINT_WORDS] = [X, Y, Z];

/// The count of payloads: 28 bits.
const PAYLOADS: i64 = 1 << 28;

/// What a file says.
#[derive(Clone, Debug, PartialEq, Eq)]
pub struct FileNet {
    pub size: (usize, usize),
    pub numbers: Vec<i32>,
}

/// A word of the file; a negative value is taken as its two's complement in 28 bits.
pub fn word(kind: u32, value: i64) -> u32 {
    assert!((-PAYLOADS / 2..PAYLOADS).contains(&value));
    kind << 28 | value.rem_euclid(PAYLOADS) as u32
}

/// The kind of a number's word by its position after the sides.
pub fn number_kind(position: usize) -> u32 {
    POINT[position % POINT_WORDS]
}

/// The words of a file of these numbers, whatever they are.
pub fn words(net: &[i32], (w, h): (usize, usize)) -> Vec<u32> {
    let mut words = vec![word(WIDTH, w as i64), word(HEIGHT, h as i64)];
    for point in net[..record::numbers((w, h))].chunks_exact(POINT_RECORD) {
        for (kind, &x) in POINT.into_iter().zip(point) {
            words.push(word(kind, i64::from(x)));
        }
    }
    words.push(word(END, 0));
    words
}

/// High byte first.
pub fn bytes(words: &[u32]) -> Vec<u8> {
    let parts = |word: &u32| [24, 16, 8, 0].map(|shift| (word >> shift) as u8);
    words.iter().flat_map(parts).collect()
}

/// The bytes of a file of these numbers, whatever they are.
pub fn file(net: &[i32], size: (usize, usize)) -> Vec<u8> {
    bytes(&words(net, size))
}

/// The count of bytes in a file; none where it does not fit a `usize`.
pub fn file_len(w: usize, h: usize) -> Option<usize> {
    let numbers = w.checked_mul(h)?.checked_mul(3 * POINT_WORDS)?;
    numbers.checked_add(3)?.checked_mul(WORD_BYTES)
}

pub fn write_faults(
    net: &[i32],
    (w, h): (usize, usize),
    out_len: usize,
    written_len: usize,
) -> Faults {
    let out_short = file_len(w, h).is_none_or(|needed| out_len < needed);
    vec![
        (oracle::size_fault(w, h), 1),
        (oracle::short(net.len(), w, h), 2),
        (out_short || written_len < 1, 5),
        (oracle::net_fault(net, w, h), 3),
    ]
}

/// The bytes of the net's file.
pub fn write(
    net: &[i32],
    (w, h): (usize, usize),
    out_len: usize,
    written_len: usize,
) -> Result<Vec<u8>, u32> {
    oracle::accepted(&write_faults(net, (w, h), out_len, written_len))?;
    Ok(file(net, (w, h)))
}

/// The bytes of a file that are not read yet.
struct Reader<'a> {
    left: &'a [u8],
}

impl Reader<'_> {
    /// The payload of the next word, which must have this kind.
    fn payload(&mut self, kind: u32) -> Result<i64, u32> {
        let [a, b, c, d, ..] = *self.left else {
            return Err(7);
        };
        self.left = &self.left[WORD_BYTES..];
        let word = [a, b, c, d]
            .iter()
            .fold(0, |word, &x| 256 * word + i64::from(x));
        if word / PAYLOADS != i64::from(kind) {
            return Err(8);
        }
        Ok(word % PAYLOADS)
    }

    fn side(&mut self, kind: u32) -> Result<usize, u32> {
        match self.payload(kind)? {
            side @ 2..=1025 => Ok(side as usize),
            _ => Err(1),
        }
    }

    fn number(&mut self, kind: u32) -> Result<i32, u32> {
        let payload = self.payload(kind)?;
        let negative = payload >= PAYLOADS / 2;
        let value = payload - if negative { PAYLOADS } else { 0 };
        let limit = i64::from(LIMIT);
        if (-limit..=limit).contains(&value) {
            Ok(value as i32)
        } else {
            Err(3)
        }
    }

    fn control(&mut self) -> Result<Control, u32> {
        Ok([self.number(X)?, self.number(Y)?, self.number(Z)?])
    }

    fn end(&mut self) -> Result<(), u32> {
        match self.payload(END)? {
            0 => Ok(()),
            _ => Err(8),
        }
    }
}

/// The net of a file, or the number of the first fault in the order of the bytes.
pub fn read(file: &[u8], net_len: usize, size_len: usize) -> Result<FileNet, u32> {
    let mut reader = Reader { left: file };
    let w = reader.side(WIDTH)?;
    let h = reader.side(HEIGHT)?;
    let size = (w, h);
    if net_len < record::numbers(size) || size_len < 2 {
        return Err(5);
    }
    let mut numbers = Vec::new();
    for _ in 0..3 * w * h {
        numbers.extend(reader.control()?);
    }
    reader.end()?;
    if !reader.left.is_empty() {
        return Err(9);
    }
    Ok(FileNet { size, numbers })
}
