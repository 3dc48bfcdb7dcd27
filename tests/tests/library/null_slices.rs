//! Slices of length 0 with a null pointer, and with one that points nowhere, for every slice of
//! every export without an outline: both are answered as the lengths demand.

use ups::raw;
use ups_tests::hermite;
use ups_tests::lending::{ways, Lend};
use ups_tests::multiresolution::{self, DETAIL_LIMIT};
use ups_tests::netfile;
use ups_tests::oracle::{self, Faults, BEZIER_NUMBERS, POINT_NUMBERS};
use ups_tests::record;
use ups_tests::refinement;
use ups_tests::seam::{self, one_place, Seam, SEAM_NUMBERS};

type Size = (usize, usize);

/// Also the size of the details, and that of the coarse net.
const SIZE: Size = (3, 3);
const COARSE: Size = (2, 2);
const NUMBERS: usize = record::numbers(SIZE);
/// More than any output takes.
const ROOM: usize = 2000;

/// Lends the slices in every way. `call` gets a size, numbers to lend and the way, and hands back
/// the library's answer and the faults.
fn check<const N: usize>(size: Size, call: impl Fn(Size, &[i32], [Lend; N]) -> (u32, Faults)) {
    let (whole, beyond) = ([0; NUMBERS], [DETAIL_LIMIT + 1; NUMBERS]);
    for size in [size, (1, size.1), (size.0, usize::MAX)] {
        for numbers in [&whole, &beyond] {
            for way in ways() {
                let (answer, faults) = call(size, numbers, way);
                let first = numbers[0];
                assert_eq!(
                    answer,
                    oracle::refusal(&faults),
                    "{size:?}, {first}, {way:?}"
                );
            }
        }
    }
}

#[test]
fn vertex_refusal() {
    check(SIZE, |(w, h), numbers, [net]| {
        let (at, len) = net.input(numbers);
        // SAFETY: a slice, or one of length 0.
        let answer = unsafe { raw::ups_vertex_refusal(at, len, w, h, 1, 1) };
        (answer, oracle::vertex_faults(net.of(numbers), w, h, 1, 1))
    });
}

#[test]
fn bezier_net() {
    check(SIZE, |(w, h), numbers, [net, out]| {
        let mut room = [0; BEZIER_NUMBERS];
        let ((at, len), (to, to_len)) = (net.input(numbers), out.output(&mut room));
        // SAFETY: slices, or some of length 0.
        let answer = unsafe { raw::ups_bezier_net(at, len, w, h, 1, 1, 1, to, to_len) };
        let faults = oracle::bezier_faults(net.of(numbers), (w, h), (1, 1), 1, to_len);
        (answer, faults)
    });
}

#[test]
fn surface_point() {
    check(SIZE, |(w, h), numbers, [net, out]| {
        let mut room = [0; POINT_NUMBERS];
        let ((at, len), (to, to_len)) = (net.input(numbers), out.output(&mut room));
        // SAFETY: slices, or some of length 0.
        let answer = unsafe { raw::ups_surface_point(at, len, w, h, 9, 9, to, to_len) };
        let faults = oracle::point_faults(net.of(numbers), (w, h), (9, 9), to_len);
        (answer, faults)
    });
}

#[test]
fn view_point() {
    check(SIZE, |(w, h), numbers, [net, out]| {
        let mut room = [0.0; POINT_NUMBERS];
        let ((at, len), (to, to_len)) = (net.input(numbers), out.output(&mut room));
        // SAFETY: slices, or some of length 0.
        let answer = unsafe { raw::ups_view_point(at, len, w, h, 9, 9, to, to_len) };
        let faults = oracle::point_faults(net.of(numbers), (w, h), (9, 9), to_len);
        (answer, faults)
    });
}

#[test]
fn write() {
    check(SIZE, |(w, h), numbers, [net, out, written]| {
        let (mut room, mut count) = ([0; ROOM], [0]);
        let ((at, len), (to, to_len)) = (net.input(numbers), out.output(&mut room));
        let (count, counts) = written.output(&mut count);
        // SAFETY: slices, or some of length 0.
        let answer = unsafe { raw::ups_write(at, len, w, h, to, to_len, count, counts) };
        let faults = netfile::write_faults(net.of(numbers), (w, h), to_len, counts);
        (answer, faults)
    });
}

#[test]
fn read() {
    let files = [netfile::file(&[0; NUMBERS], SIZE), Vec::new()];
    for file in &files {
        for way @ [whole, net, size] in ways() {
            let (mut room, mut sides) = ([0; ROOM], [0; 2]);
            let ((at, len), (to, to_len)) = (whole.input(file), net.output(&mut room));
            let (size, size_len) = size.output(&mut sides);
            // SAFETY: slices, or some of length 0.
            let answer = unsafe { raw::ups_read(at, len, to, to_len, size, size_len) };
            let expected = netfile::read(whole.of(file), to_len, size_len);
            assert_eq!(answer, expected.err().unwrap_or(0), "{way:?}");
        }
    }
}

/// One step needs no scratch, two do.
#[test]
fn refine() {
    for k in 0..3 {
        check(SIZE, |(w, h), numbers, [net, out, scratch]| {
            let (mut room, mut more) = ([0; ROOM], [0; ROOM]);
            let ((at, len), (to, to_len)) = (net.input(numbers), out.output(&mut room));
            let (by, by_len) = scratch.output(&mut more);
            // SAFETY: slices, or some of length 0.
            let answer = unsafe { raw::ups_refine(at, len, w, h, k, to, to_len, by, by_len) };
            let faults = refinement::refine_faults(net.of(numbers), (w, h), k, to_len, by_len);
            (answer, faults)
        });
    }
}

#[test]
fn refined_point() {
    for k in 0..3 {
        check(SIZE, |(w, h), numbers, [net, out, scratch, point]| {
            let (mut room, mut more, mut last) = ([0; ROOM], [0; ROOM], [0; POINT_NUMBERS]);
            let ((at, len), (to, to_len)) = (net.input(numbers), out.output(&mut room));
            let (by, by_len) = scratch.output(&mut more);
            let (last, last_len) = point.output(&mut last);
            // SAFETY: slices, or some of length 0.
            let answer = unsafe {
                raw::ups_refined_point(
                    at, len, w, h, k, 9, 9, to, to_len, by, by_len, last, last_len,
                )
            };
            let (net, size) = (net.of(numbers), (w, h));
            let faults =
                refinement::refined_point_faults(net, size, k, (9, 9), to_len, by_len, last_len);
            (answer, faults)
        });
    }
}

/// Without a step on one side, and with one step or two on the other.
#[test]
fn seam_points() {
    for steps in [[0, 0], [1, 0], [0, 2]] {
        let places = one_place(steps, (9, 9));
        let [(k, p, q), (l, p2, q2)] = places.map(|at| (at.k, at.place.0, at.place.1));
        check(SIZE, |(w, h), numbers, way: [Lend; 6]| {
            let [mut a, mut b, mut c, mut d] = [[0; ROOM]; 4];
            let mut points = [0; SEAM_NUMBERS];
            let (net, len) = way[0].input(numbers);
            let ((to, to_len), (by, by_len)) = (way[1].output(&mut a), way[2].output(&mut b));
            let ((to2, to2_len), (by2, by2_len)) = (way[3].output(&mut c), way[4].output(&mut d));
            let (both, both_len) = way[5].output(&mut points);
            // SAFETY: slices, or some of length 0.
            let answer = unsafe {
                raw::ups_seam_points(
                    net, len, w, h, k, l, p, q, p2, q2, to, to_len, by, by_len, to2, to2_len, by2,
                    by2_len, both, both_len,
                )
            };
            let seam = Seam {
                places,
                scratch_lens: [by_len, by2_len],
                points_len: both_len,
            };
            let (net, outs) = (way[0].of(numbers), [to_len, to2_len]);
            (answer, seam::seam_faults(net, (w, h), &seam, outs))
        });
    }
}

#[test]
fn split() {
    check(SIZE, |(w, h), numbers, [net, coarse, details]| {
        let (mut room, mut more) = ([0; ROOM], [0; ROOM]);
        let ((at, len), (to, to_len)) = (net.input(numbers), coarse.output(&mut room));
        let (rest, rest_len) = details.output(&mut more);
        // SAFETY: slices, or some of length 0.
        let answer = unsafe { raw::ups_split(at, len, w, h, to, to_len, rest, rest_len) };
        let faults = multiresolution::split_faults(net.of(numbers), (w, h), to_len, rest_len);
        (answer, faults)
    });
}

#[test]
fn merge() {
    check(COARSE, |(w, h), numbers, [coarse, details, out]| {
        let mut room = [0; ROOM];
        let ((at, len), (with, with_len)) = (coarse.input(numbers), details.input(numbers));
        let (to, to_len) = out.output(&mut room);
        // SAFETY: slices, or some of length 0; those that are read may overlap.
        let answer = unsafe { raw::ups_merge(at, len, with, with_len, w, h, to, to_len) };
        let (coarse, details) = (coarse.of(numbers), details.of(numbers));
        let faults = multiresolution::merge_faults(coarse, details, (w, h), to_len);
        (answer, faults)
    });
}

#[test]
fn clean() {
    check(SIZE, |(w, h), numbers, [details]| {
        let mut lent = numbers.to_vec();
        let (to, len) = details.output(&mut lent);
        // SAFETY: a slice, or one of length 0.
        let answer = unsafe { raw::ups_clean(to, len, w, h, 1) };
        (
            answer,
            multiresolution::clean_faults(details.of(numbers), (w, h), 1),
        )
    });
}

#[test]
fn from_points() {
    check(SIZE, |(w, h), numbers, [given, out]| {
        let mut room = [0; ROOM];
        let ((at, len), (to, to_len)) = (given.input(numbers), out.output(&mut room));
        // SAFETY: slices, or some of length 0.
        let answer = unsafe { raw::ups_from_points(at, len, w, h, to, to_len) };
        let faults = hermite::from_points_faults(given.of(numbers), (w, h), to_len);
        (answer, faults)
    });
}
