//! Times surface points, the viewer's points and Bézier nets.

use crate::plain::{self, Refusal};
use crate::plain_refine::Size;
use crate::{answer, medians, print_headings, same, tuned, Pass, Random, CALLS, PASSES, SIDE};
use std::fmt::Debug;
use std::hint::black_box;
use ups::{lent, BEZIER, EDGE, POINT};

type Place = (usize, usize);

/// What p rises by from place to place along a row, so that there are as many as random ones.
const STRIDE: usize = EDGE * (SIDE - 1) / CALLS;

/// A number of a result, by its bits.
trait Number: Copy + Default {
    fn bits(self) -> i64;
}

impl Number for i32 {
    fn bits(self) -> i64 {
        i64::from(self)
    }
}

impl Number for f64 {
    fn bits(self) -> i64 {
        self.to_bits() as i64
    }
}

/// One version of a computation: all its results, and the pass that is timed.
struct Version<'a> {
    results: Vec<i64>,
    pass: Pass<'a>,
}

/// The version that makes this call with each input.
fn version<'a, I: Copy + Debug, T: Number, const N: usize>(
    inputs: &'a [I],
    call: impl Fn(I, &mut [T]) -> Result<(), Refusal> + 'a,
) -> Version<'a> {
    let results = inputs.iter().flat_map(|&input| {
        let mut out = [T::default(); N];
        assert_eq!(call(input, &mut out), Ok(()), "{input:?}");
        out.map(T::bits)
    });
    Version {
        results: results.collect(),
        pass: Box::new(move || {
            let mut total = 0_i64;
            for &input in black_box(inputs) {
                let mut out = [T::default(); N];
                assert_eq!(call(input, &mut out), Ok(()));
                let bits = black_box(&out).iter().map(|x| x.bits());
                total = bits.fold(total, i64::wrapping_add);
            }
            total
        }),
    }
}

/// Times the versions, which have the same results; the kernel's is the first.
fn measure_versions(name: &str, versions: Vec<Version>) {
    let calls = CALLS as f64;
    same(name, versions.iter().map(|version| &version.results));
    let passes = versions.into_iter().map(|version| version.pass).collect();
    let times = medians(name, PASSES, || (), passes);
    let kernel = times[0];
    print!("{name:<16}{:>10.1}", kernel / calls);
    for other in &times[1..] {
        print!("{:>10.1}{:>8.2}", other / calls, kernel / other);
    }
    println!();
}

fn surface_points(name: &str, net: &[i32], size: Size, places: &[Place]) {
    let (w, h) = size;
    let versions = vec![
        version::<_, _, POINT>(places, |(p, q), out| {
            answer(lent::surface_point(net, w, h, p, q, out))
        }),
        version::<_, _, POINT>(places, |place, out| {
            plain::surface_point_by_steps(net, size, place, out)
        }),
        version::<_, _, POINT>(places, |place, out| {
            tuned::surface_point(net, size, place, out)
        }),
    ];
    measure_versions(name, versions);
}

fn view_points(net: &[i32], size: Size, places: &[Place]) {
    let (w, h) = size;
    let versions = vec![
        version::<_, _, POINT>(places, |(p, q), out| {
            answer(lent::view_point(net, w, h, p, q, out))
        }),
        version::<_, _, POINT>(places, |place, out| {
            plain::view_point(net, size, place, out)
        }),
        version::<_, _, POINT>(places, |place, out| {
            tuned::view_point(net, size, place, out)
        }),
    ];
    measure_versions("viewer's point", versions);
}

fn bezier_nets(net: &[i32], size: Size, random: &mut Random) {
    let (w, h) = size;
    let triangles: Vec<(Place, u32)> = (0..CALLS)
        .map(|_| {
            let cell = (random.below(SIDE - 1), random.below(SIDE - 1));
            (cell, random.below(2) as u32)
        })
        .collect();
    let versions = vec![
        version::<_, _, BEZIER>(&triangles, |((i, j), down), out| {
            answer(lent::bezier_net(net, w, h, i, j, down == 1, out))
        }),
        version::<_, _, BEZIER>(&triangles, |(cell, down), out| {
            plain::bezier_net(net, size, cell, down, out)
        }),
        version::<_, _, BEZIER>(&triangles, |(cell, down), out| {
            tuned::bezier_net(net, size, cell, down, out)
        }),
    ];
    measure_versions("Bézier net", versions);
}

pub fn measure(net: &[i32], random: &mut Random) {
    // The compiler is not to know the size: the library does not.
    let size = black_box((SIDE, SIDE));
    let last = EDGE * (SIDE - 1);
    let places: Vec<Place> = (0..CALLS)
        .map(|_| (random.below(last + 1), random.below(last + 1)))
        .collect();
    let q = random.below(last + 1);
    let row: Vec<Place> = (0..CALLS).map(|n| (STRIDE * n, q)).collect();
    print_headings("ns per call", &["steps", "tuned"]);
    surface_points("surface point", net, size, &places);
    surface_points("along a row", net, size, &row);
    view_points(net, size, &places);
    println!();
    print_headings("ns per call", &["plain", "tuned"]);
    bezier_nets(net, size, random);
}
