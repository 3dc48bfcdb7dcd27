//! Demand 3 by running: points of the refined net keep near the exact spline of the starting
//! net and between the control values of its triangles.

use ups_tests::hermite;
use ups_tests::kernel::{LentNet, Number, Room};
use ups_tests::nets::{self, Numbers, NUMBERS};
use ups_tests::oracle::{triangles_at, Net, EDGE};
use ups_tests::random::Random;
use ups_tests::rational::Rational;
use ups_tests::record::RECORD;
use ups_tests::refinement;

type Size = (usize, usize);

/// A starting net and the whole lent output of its refinement, with junk after the result.
struct Refined<'a> {
    start: Net<'a>,
    k: usize,
    starting: LentNet,
    whole: LentNet,
    fine: Size,
    /// How many of the places lay in how many starting triangles.
    held: [usize; 7],
}

impl<'a> Refined<'a> {
    fn new(numbers: &'a [i32], size: Size, k: usize) -> Self {
        let starting = LentNet::new(numbers);
        let room = Room::of_steps(size, k, 0);
        let mut whole = starting.refine(size, k, room).expect("accepted");
        // Beyond the range as well.
        whole.extend((0..10 * RECORD).map(i32::canary));
        Refined {
            start: Net::new(numbers, size.0, size.1),
            k,
            starting,
            whole: LentNet::new(&whole),
            fine: refinement::refined_size(size, k).expect("a size"),
            held: [0; 7],
        }
    }

    /// Places of the refined grid: on and next to its own lines, on and next to those of the
    /// starting net, and every vertex of the starting net.
    fn places(&self, random: &mut Random) -> Vec<Size> {
        let (w, h) = (self.start.w, self.start.h);
        let edge = 1024 << self.k;
        let mut places = nets::places(random, self.fine);
        places.extend(nets::places_at(random, (w, h), edge));
        places.extend((0..w * h).map(|n| (edge * (n % w), edge * (n / w))));
        places
    }

    /// The surface point of the refined net.
    fn point(&self, place: Size) -> [i32; 3] {
        let point = self.whole.surface_point(self.fine, place, 3);
        point.unwrap_or_else(|number| panic!("{place:?}: {number}"))
    }

    /// The surface point where one call refines and answers it.
    fn point_at_once(&self, place: Size) -> [i32; 3] {
        let size = (self.start.w, self.start.h);
        let room = Room::of_steps(size, self.k, 7);
        let answer = self.starting.refined_point(size, self.k, place, room, 3);
        answer
            .unwrap_or_else(|number| panic!("{place:?}: {number}"))
            .1
    }

    fn check(&mut self, place: Size) {
        let point = self.point(place);
        let what = format!(
            "{} by {}, {} steps, {place:?}",
            self.start.w, self.start.h, self.k
        );
        let (p, q) = (place.0 as i128, place.1 as i128);
        let edge = EDGE << self.k;
        let exact = self.start.exact(p, q, edge);
        let bound = Rational::new(self.k as i128 + 1, 2);
        for (x, exact) in point.into_iter().zip(exact) {
            let error = Rational::from(x) - exact;
            assert!(-bound <= error && error <= bound, "{what}: {x}");
        }
        let triangles = triangles_at(self.start.w, self.start.h, p, q, edge);
        for &triangle in &triangles {
            for (coordinate, x) in point.into_iter().enumerate() {
                let (least, greatest) = self.start.control_range(triangle, coordinate);
                assert!((least..=greatest).contains(&x), "{what}: {x} {triangle:?}");
            }
        }
        self.held[triangles.len()] += 1;
    }
}

/// The single call refines each time, so it gets fewer of the places where that takes long.
fn check_places(numbers: &[i32], size: Size, k: usize, random: &mut Random) -> [usize; 7] {
    let mut refined = Refined::new(numbers, size, k);
    for (n, place) in refined.places(random).into_iter().enumerate() {
        refined.check(place);
        if k < 3 || n % 10 == 0 {
            assert_eq!(
                refined.point_at_once(place),
                refined.point(place),
                "{place:?}"
            );
        }
    }
    refined.held
}

#[test]
fn random_nets() {
    for k in 0..=6 {
        let mut random = Random::new(131 + k as u64);
        let mut held = [0; 7];
        // Fewer nets where they get large.
        for round in 0..if k < 4 { 48 } else { 12 } {
            let size = (2 + random.below(4), 2 + random.below(4));
            let numbers = nets::random_net(&mut random, size, NUMBERS[round % 4]);
            let counts = check_places(&numbers, size, k, &mut random);
            held = std::array::from_fn(|n| held[n] + counts[n]);
        }
        println!("{k} steps, places by triangles that hold them: {held:?}");
        for count in [1, 2, 3, 6] {
            assert!(held[count] >= 10, "too few places in {count}: {held:?}");
        }
        assert_eq!(held[0], 0, "{k} steps: a place in no triangle");
    }
}

/// A net through given points is one like any other.
#[test]
fn nets_through_given_points() {
    let mut random = Random::new(144);
    for k in 0..=3 {
        for round in 0..12 {
            let size = (2 + random.below(3), 2 + random.below(3));
            let given = nets::random_given(&mut random, size, NUMBERS[round % 4]);
            let net = hermite::from_points(&given, size, usize::MAX).expect("accepted");
            check_places(&net, size, k, &mut random);
        }
    }
}

/// Every vertex of the refined net, and so every vertex of the starting net.
#[test]
fn every_refined_vertex() {
    let mut random = Random::new(141);
    for k in 0..=4 {
        for (size, kind) in [(2, 2), (3, 2), (2, 3), (3, 3)].into_iter().zip(NUMBERS) {
            let numbers = nets::random_net(&mut random, size, kind);
            let mut refined = Refined::new(&numbers, size, k);
            for j in 0..refined.fine.1 {
                for i in 0..refined.fine.0 {
                    refined.check((1024 * i, 1024 * j));
                }
            }
        }
    }
}

/// Along the edges in all three directions and along the midlines of both triangles, at shares
/// of the starting cell.
#[test]
fn edges_and_midlines_of_one_cell() {
    let mut random = Random::new(142);
    for k in 0..=6 {
        for kind in NUMBERS {
            let numbers = nets::random_net(&mut random, (2, 2), kind);
            let mut refined = Refined::new(&numbers, (2, 2), k);
            let edge = 1024 << k;
            let t = |n: usize| n * edge / 64;
            for t in (0..=64).map(t) {
                for place in [(t, 0), (t, edge), (0, t), (edge, t), (t, edge - t), (t, t)] {
                    refined.check(place);
                }
            }
            for t in (0..=32).map(t) {
                let midlines = [
                    (t, edge - 2 * t),
                    (edge - 2 * t, t),
                    (edge - t, 2 * t),
                    (2 * t, edge - t),
                ];
                for place in midlines {
                    refined.check(place);
                }
            }
        }
    }
}

#[test]
fn the_greatest_refined_net() {
    let mut random = Random::new(143);
    let size = (17, 17);
    let numbers = nets::random_net(&mut random, size, Numbers::Mixed);
    let mut refined = Refined::new(&numbers, size, 6);
    let places = refined.places(&mut random);
    for (n, &place) in places.iter().enumerate() {
        if n % 4 == 0 {
            refined.check(place);
        }
    }
    let last = 1024 * 1024;
    for place in [
        (0, 0),
        (last, last),
        (last, 3),
        (5, last),
        (last - 1, 123_456),
    ] {
        refined.check(place);
    }
    let place = (last - 1, 123_456);
    assert_eq!(refined.point_at_once(place), refined.point(place));
}
