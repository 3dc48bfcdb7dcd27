//! Times writing and reading a file.

use crate::plain::Refusal;
use crate::plain_refine::Size;
use crate::{
    medians, plain_file, print_headings, print_times, same, touched, tuned_file, Pass, FINE_SIDE,
    MS,
};
use std::cell::RefCell;
use std::hint::black_box;
use ups::{file_bytes, lent};

const SIZE: Size = (FINE_SIDE, FINE_SIDE);

/// Hands the count of the bytes back.
type Write = fn(&[i32], Size, &mut [u8]) -> Result<usize, Refusal>;

const WRITE: [Write; 3] = [
    |net, (w, h), out| lent::write(net, w, h, out).map_err(ups::Refusal::number),
    |net, size, out| {
        let mut written = [0];
        plain_file::write(net, size, out, &mut written).map(|()| written[0] as usize)
    },
    |net, size, out| {
        let mut written = [0];
        tuned_file::write(net, size, out, &mut written).map(|()| written[0] as usize)
    },
];

/// Hands the size back.
type Read = fn(&[u8], &mut [i32]) -> Result<Size, Refusal>;

const READ: [Read; 3] = [
    |file, out| lent::read(file, out).map_err(ups::Refusal::number),
    |file, out| {
        let mut size = [0; 2];
        plain_file::read(file, out, &mut size).map(|()| sides(size))
    },
    |file, out| {
        let mut size = [0; 2];
        tuned_file::read(file, out, &mut size).map(|()| sides(size))
    },
];

fn sides([w, h]: [u64; 2]) -> Size {
    (w as usize, h as usize)
}

/// Times the versions, which write over the same memory and hand the count of the file's bytes
/// back, and a copy of as many bytes.
fn time<T>(name: &str, out: Vec<T>, bytes: usize, versions: [impl Fn(&mut [T]) -> usize; 3]) {
    let out = &RefCell::new(out);
    let versions = versions.map(|version| -> Pass {
        Box::new(move || {
            let out = &mut *out.borrow_mut();
            let bytes = version(out);
            black_box(out);
            bytes as i64
        })
    });
    let (from, mut to) = (touched::<u8>(bytes), touched(bytes));
    let copy: Pass = Box::new(move || {
        to.copy_from_slice(black_box(&from));
        black_box(&to).len() as i64
    });
    let passes = versions.into_iter().chain([copy]).collect();
    print_times(name, MS, &medians(name, 1, || (), passes));
}

/// Writes the net in each version and hands its file back.
fn write_file(net: &[i32]) -> Vec<u8> {
    let len = file_bytes(FINE_SIDE, FINE_SIDE);
    let files = WRITE.iter().map(|write| {
        let mut out = touched(len);
        assert_eq!(write(net, SIZE, &mut out), Ok(len));
        out
    });
    let file = same("write", files);
    let versions = WRITE.map(|write| {
        move |out: &mut [u8]| {
            let written = write(black_box(net), SIZE, out);
            assert_eq!(written, Ok(len));
            len
        }
    });
    time("write", touched(len), len, versions);
    file
}

/// Reads the net's file in each version.
fn read_file(file: &[u8], net: &[i32]) {
    let nets = READ.iter().map(|read| {
        let mut out = touched(net.len());
        assert_eq!(read(file, &mut out), Ok(SIZE));
        out
    });
    assert!(same("read", nets) == net, "the nets differ");
    let versions = READ.map(|read| {
        move |out: &mut [i32]| {
            assert_eq!(read(black_box(file), out), Ok(SIZE));
            file.len()
        }
    });
    time("read", touched(net.len()), file.len(), versions);
}

pub fn measure(net: &[i32]) {
    print_headings("ms per file", &["plain", "tuned", "copy"]);
    let file = write_file(net);
    read_file(&file, net);
}
