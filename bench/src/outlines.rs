//! Times the calls with an outline.

use crate::plain_outline::{self, comb, full, spiral, turned};
use crate::plain_refine::Size;
use crate::{
    answer, medians, print_headings, print_times, sample, sum, touched, Pass, Random, CALLS,
    FINE_SIDE, MS, PASSES, SIDE, STEPS,
};
use std::cell::RefCell;
use std::hint::black_box;
use ups::{
    lent, net_numbers, refined_numbers, refined_triangles, scratch_numbers, triangles, Refusal,
    POINT,
};

type Shape = (&'static str, fn(Size) -> Vec<u8>);

const SHAPES: [Shape; 5] = [
    ("full", full),
    ("spiral", spiral),
    ("comb", comb),
    ("spiral, turned", |size| turned(spiral(size))),
    ("comb, turned", |size| turned(comb(size))),
];

/// Checks the outlines of the greatest net.
fn check() {
    print_headings("ms per check", &["flood"]);
    let size @ (w, h) = (FINE_SIDE, FINE_SIDE);
    for (name, shape) in SHAPES {
        let outline = &shape(size);
        let mut search: Vec<u32> = touched(triangles(w, h));
        let kernel: Pass = Box::new(|| {
            let answer = lent::check_outline(black_box(outline), w, h, &mut search);
            i64::from(answer.is_ok())
        });
        let flood: Pass = Box::new(|| {
            let answer = plain_outline::check(black_box(outline), size);
            i64::from(answer.is_ok())
        });
        let times = medians(name, 1, || (), vec![kernel, flood]);
        print_times(name, MS, &times);
    }
}

/// The links that the search follows a triangle, by the sides of the net.
fn links() {
    let sides = [129, 513, 1025];
    print!("{:<16}", "links followed");
    sides.iter().for_each(|side| print!("{side:>10}"));
    println!();
    for (name, shape) in SHAPES {
        print!("{name:<16}");
        for side in sides {
            let size = (side, side);
            print!(
                "{:>10.2}",
                plain_outline::links_followed(&shape(size), size)
            );
        }
        println!();
    }
}

/// Refines a net with an outline, and without.
fn refine(net: &[i32]) {
    print_headings("ms per net", &["without"]);
    let (w, h, k) = (SIDE, SIDE, STEPS);
    let len = refined_numbers(w, h, k);
    let out = &RefCell::new(touched::<i32>(len));
    let scratch = &RefCell::new(touched::<i32>(scratch_numbers(w, h, k)));
    for (name, shape) in SHAPES.into_iter().take(3) {
        let outline = shape((w, h));
        let mut fine: Vec<u8> = touched(refined_triangles(w, h, k));
        let mut search: Vec<u32> = touched(triangles(w, h));
        let outlined: Pass = Box::new(|| {
            let (out, scratch) = (&mut *out.borrow_mut(), &mut *scratch.borrow_mut());
            let (net, fine, search) = (black_box(net), &mut fine[..], &mut search[..]);
            let done = lent::refine_outlined(net, w, h, k, &outline, out, scratch, fine, search);
            assert_eq!(answer(done), Ok(()));
            black_box(fine);
            sample(black_box(out))
        });
        let without: Pass = Box::new(|| {
            let (out, scratch) = (&mut *out.borrow_mut(), &mut *scratch.borrow_mut());
            let done = lent::refine(black_box(net), w, h, k, out, scratch);
            assert_eq!(answer(done), Ok(()));
            sample(black_box(out))
        });
        let times = medians(name, 1, || (), vec![outlined, without]);
        print_times(name, MS, &times);
    }
}

/// Surface points with an outline, and without, on nets of two sizes; and what of it is the test of
/// all bytes, as the library does it before it refuses a place by 15, and in plain Rust.
fn points(net: &[i32], random: &mut Random) {
    println!(
        "{:<16}{:>10}{:>10}{:>8}{:>10}{:>10}",
        "ns per point", "kernel", "without", "ratio", "15 alone", "13 plain"
    );
    for side in [2, SIDE] {
        let net = &net[..net_numbers(side, side)];
        let last = 1024 * (side - 1);
        let places: Vec<Size> = (0..CALLS)
            .map(|_| (random.below(last + 1), random.below(last + 1)))
            .collect();
        let (places, present) = (&places, &full((side, side)));
        let missing = &vec![0; present.len()];
        let outlined = |outline: &[u8], due: Result<(), Refusal>| {
            let mut total = 0;
            for &(p, q) in black_box(places) {
                let (mut out, outline) = ([0; POINT], black_box(outline));
                let done = lent::surface_point_outlined(net, side, side, outline, p, q, &mut out);
                assert_eq!(done, due);
                total += sum(black_box(&out));
            }
            total
        };
        let kernel: Pass = Box::new(|| outlined(present, Ok(())));
        let without: Pass = Box::new(|| {
            let mut total = 0;
            for &(p, q) in black_box(places) {
                let mut out = [0; POINT];
                let done = lent::surface_point(net, side, side, p, q, &mut out);
                assert_eq!(done, Ok(()));
                total += sum(black_box(&out));
            }
            total
        });
        let refused: Pass = Box::new(|| outlined(missing, Err(Refusal::OFF_DOOR)));
        let bytes: Pass = Box::new(|| {
            let count = black_box(places)
                .iter()
                .filter(|_| plain_outline::bad_byte(black_box(present)));
            count.count() as i64
        });
        let per_call = |times: Vec<f64>| -> Vec<f64> {
            times.into_iter().map(|time| time / CALLS as f64).collect()
        };
        let both = per_call(medians("points", PASSES, || (), vec![kernel, without]));
        let refused = per_call(medians("15", PASSES, || (), vec![refused]));
        let bytes = per_call(medians("13", PASSES, || (), vec![bytes]));
        println!(
            "{:<16}{:>10.1}{:>10.1}{:>8.2}{:>10.1}{:>10.1}",
            format!("{side} by {side}"),
            both[0],
            both[1],
            both[0] / both[1],
            refused[0],
            bytes[0]
        );
    }
}

pub fn measure(net: &[i32], random: &mut Random) {
    points(net, random);
    println!();
    refine(net);
    println!();
    check();
    println!();
    links();
}
