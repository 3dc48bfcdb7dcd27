//! Slices of length 0 with a null pointer, and with one that points nowhere, for every slice of
//! every export with an outline: both are answered as the lengths demand.

use ups::raw;
use ups_tests::lending::{ways, Lend};
use ups_tests::oracle::{self, Faults, BEZIER_NUMBERS, LIMIT, POINT_NUMBERS};
use ups_tests::outlines::{self, Door, Lengths};
use ups_tests::record;

type Size = (usize, usize);

const SIZE: Size = (3, 3);
const NUMBERS: usize = record::numbers(SIZE);
const TRIANGLES: usize = 8;
/// More than any output takes.
const ROOM: usize = 2000;

/// Lends the slices in every way. `call` gets a size, numbers and bytes to lend and the way, and
/// hands back the library's answer and the faults.
fn check<const N: usize>(call: impl Fn(Size, &[i32], &[u8], [Lend; N]) -> (u32, Faults)) {
    let nets = [[0; NUMBERS], [LIMIT + 1; NUMBERS]];
    let outlines = [1, 0, 2].map(|byte| [byte; TRIANGLES]);
    for size in [SIZE, (1, SIZE.1), (SIZE.0, usize::MAX)] {
        for net in &nets {
            for outline in &outlines {
                for way in ways() {
                    let (answer, faults) = call(size, net, outline, way);
                    let what = (size, net[0], outline[0], way);
                    assert_eq!(answer, oracle::refusal(&faults), "{what:?}");
                }
            }
        }
    }
}

#[test]
fn check_outline() {
    check(|(w, h), _, bytes, [outline, search]| {
        let mut room = [0; TRIANGLES];
        let ((on, on_len), (by, by_len)) = (outline.input(bytes), search.output(&mut room));
        // SAFETY: slices, or some of length 0.
        let answer = unsafe { raw::ups_check_outline(on, on_len, w, h, by, by_len) };
        let door = Door::new(outline.of(bytes), (w, h));
        (answer, outlines::check_faults(&door, by_len))
    });
}

#[test]
fn bezier_net_outlined() {
    check(|(w, h), numbers, bytes, [net, outline, out]| {
        let mut room = [0; BEZIER_NUMBERS];
        let ((at, len), (on, on_len)) = (net.input(numbers), outline.input(bytes));
        let (to, to_len) = out.output(&mut room);
        // SAFETY: slices, or some of length 0.
        let answer =
            unsafe { raw::ups_bezier_net_outlined(at, len, w, h, on, on_len, 1, 1, 1, to, to_len) };
        let door = Door::new(outline.of(bytes), (w, h));
        let faults = outlines::bezier_faults(net.of(numbers), &door, (1, 1), 1, to_len);
        (answer, faults)
    });
}

#[test]
fn surface_point_outlined() {
    check(|(w, h), numbers, bytes, [net, outline, out]| {
        let mut room = [0; POINT_NUMBERS];
        let ((at, len), (on, on_len)) = (net.input(numbers), outline.input(bytes));
        let (to, to_len) = out.output(&mut room);
        // SAFETY: slices, or some of length 0.
        let answer =
            unsafe { raw::ups_surface_point_outlined(at, len, w, h, on, on_len, 9, 9, to, to_len) };
        let door = Door::new(outline.of(bytes), (w, h));
        let faults = outlines::point_faults(net.of(numbers), &door, (9, 9), to_len);
        (answer, faults)
    });
}

#[test]
fn view_point_outlined() {
    check(|(w, h), numbers, bytes, [net, outline, out]| {
        let mut room = [0.0; POINT_NUMBERS];
        let ((at, len), (on, on_len)) = (net.input(numbers), outline.input(bytes));
        let (to, to_len) = out.output(&mut room);
        // SAFETY: slices, or some of length 0.
        let answer =
            unsafe { raw::ups_view_point_outlined(at, len, w, h, on, on_len, 9, 9, to, to_len) };
        let door = Door::new(outline.of(bytes), (w, h));
        let faults = outlines::point_faults(net.of(numbers), &door, (9, 9), to_len);
        (answer, faults)
    });
}

/// One step needs no scratch, two do.
#[test]
fn refine_outlined() {
    for k in 0..3 {
        check(
            |(w, h), numbers, bytes, [net, outline, out, scratch, fine, search]| {
                let (mut room, mut more, mut last) = ([0; ROOM], [0; ROOM], [0; ROOM]);
                let mut links = [0; TRIANGLES];
                let ((at, len), (on, on_len)) = (net.input(numbers), outline.input(bytes));
                let ((to, to_len), (by, by_len)) =
                    (out.output(&mut room), scratch.output(&mut more));
                let ((last, last_len), (links, links_len)) =
                    (fine.output(&mut last), search.output(&mut links));
                // SAFETY: slices, or some of length 0.
                let answer = unsafe {
                    raw::ups_refine_outlined(
                        at, len, w, h, k, on, on_len, to, to_len, by, by_len, last, last_len,
                        links, links_len,
                    )
                };
                let lengths = Lengths {
                    out: to_len,
                    scratch: by_len,
                    fine: last_len,
                    search: links_len,
                };
                let door = Door::new(outline.of(bytes), (w, h));
                let faults = outlines::refine_faults(net.of(numbers), &door, k, lengths);
                (answer, faults)
            },
        );
    }
}

#[test]
fn refined_point_outlined() {
    for k in 0..3 {
        check(
            |(w, h), numbers, bytes, [net, outline, out, scratch, fine, search, point]| {
                let (mut room, mut more, mut last) = ([0; ROOM], [0; ROOM], [0; ROOM]);
                let (mut links, mut place) = ([0; TRIANGLES], [0; POINT_NUMBERS]);
                let ((at, len), (on, on_len)) = (net.input(numbers), outline.input(bytes));
                let ((to, to_len), (by, by_len)) =
                    (out.output(&mut room), scratch.output(&mut more));
                let ((last, last_len), (links, links_len)) =
                    (fine.output(&mut last), search.output(&mut links));
                let (place, place_len) = point.output(&mut place);
                // SAFETY: slices, or some of length 0.
                let answer = unsafe {
                    raw::ups_refined_point_outlined(
                        at, len, w, h, k, on, on_len, 9, 9, to, to_len, by, by_len, last, last_len,
                        links, links_len, place, place_len,
                    )
                };
                let lengths = Lengths {
                    out: to_len,
                    scratch: by_len,
                    fine: last_len,
                    search: links_len,
                };
                let (net, place) = (net.of(numbers), (9, 9));
                let door = Door::new(outline.of(bytes), (w, h));
                let faults =
                    outlines::refined_point_faults(net, &door, k, place, lengths, place_len);
                (answer, faults)
            },
        );
    }
}
