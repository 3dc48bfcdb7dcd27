//! Demand 3 on the door by running: the refined net and its outline, handed on as refining wrote
//! them, answer a point at each place of the door, near the exact spline of the starting net and
//! between the control values of its triangles. At every other place the answer is 15.

use ups_tests::kernel::{DoorRoom, LentNet, LentOutline, Number, RefinedDoor};
use ups_tests::nets::{self, NUMBERS};
use ups_tests::oracle::{triangles_at, Net, EDGE};
use ups_tests::outlines::Door;
use ups_tests::random::Random;
use ups_tests::rational::Rational;
use ups_tests::record::RECORD;
use ups_tests::refinement;
use ups_tests::shapes;

type Size = (usize, usize);

/// A starting net with its outline, and both lent outputs of its refinement, with junk after them.
struct Refined<'a> {
    start: Net<'a>,
    door: Door<'a>,
    k: usize,
    starting: (LentNet, LentOutline),
    refined: (LentNet, LentOutline),
    fine: Size,
    whole: RefinedDoor,
    /// How many places were off the door, and how many on it.
    seen: [usize; 2],
}

impl<'a> Refined<'a> {
    fn new(numbers: &'a [i32], bytes: &'a [u8], size: Size, k: usize) -> Self {
        let starting = (LentNet::new(numbers), LentOutline::new(bytes));
        let room = DoorRoom::of_steps(size, k, 0);
        let whole = starting.0.refine_outlined(&starting.1, size, k, room);
        let whole = whole.expect("accepted");
        // Beyond the range, and above 1.
        let mut after = (whole.numbers.clone(), whole.outline.clone());
        after.0.extend((0..10 * RECORD).map(i32::canary));
        after.1.extend((0..90).map(u8::canary));
        Refined {
            start: Net::new(numbers, size.0, size.1),
            door: Door::new(bytes, size),
            k,
            starting,
            refined: (LentNet::new(&after.0), LentOutline::new(&after.1)),
            fine: refinement::refined_size(size, k).expect("a size"),
            whole,
            seen: [0; 2],
        }
    }

    /// On and next to the lines of the refined net and of the starting net.
    fn places(&self, random: &mut Random) -> Vec<Size> {
        let (w, h) = (self.start.w, self.start.h);
        let edge = 1024 << self.k;
        let mut places = nets::places(random, self.fine);
        places.extend(nets::places_at(random, (w, h), edge));
        places.extend((0..w * h).map(|n| (edge * (n % w), edge * (n / w))));
        places
    }

    /// The surface point of the refined net on its own outline.
    fn point(&self, place: Size) -> Result<[i32; 3], u32> {
        let (net, outline) = &self.refined;
        net.surface_point_outlined(outline, self.fine, place, 3)
    }

    /// The same where one call refines and answers it.
    fn check_at_once(&self, place: Size) {
        let (net, outline) = &self.starting;
        let (size, k) = (self.door.size, self.k);
        let room = DoorRoom::of_steps(size, k, 7);
        let answer = net.refined_point_outlined(outline, size, k, place, room, 3);
        let due = self.point(place).map(|point| RefinedDoor {
            point: Some(point),
            ..self.whole.clone()
        });
        assert!(answer == due, "{size:?}, {k} steps, {place:?}");
    }

    fn check(&mut self, place: Size) {
        let (w, h) = self.door.size;
        let what = format!("{w} by {h}, {} steps, {place:?}", self.k);
        let edge = EDGE << self.k;
        let on_door = self.door.holds(place, edge);
        self.seen[usize::from(on_door)] += 1;
        // The same places are on the door of the fine outline.
        let fine = Door::new(&self.whole.outline, self.fine);
        assert_eq!(fine.holds(place, EDGE), on_door, "{what}");
        let point = match self.point(place) {
            Ok(point) if on_door => point,
            answer => return assert_eq!(answer, Err(15), "{what}, on the door: {on_door}"),
        };
        let (p, q) = (place.0 as i128, place.1 as i128);
        let bound = Rational::new(self.k as i128 + 1, 2);
        for (x, exact) in point.into_iter().zip(self.start.exact(p, q, edge)) {
            let error = Rational::from(x) - exact;
            assert!(-bound <= error && error <= bound, "{what}: {x}");
        }
        for triangle in triangles_at(w, h, p, q, edge) {
            for (coordinate, x) in point.into_iter().enumerate() {
                let (least, greatest) = self.start.control_range(triangle, coordinate);
                assert!((least..=greatest).contains(&x), "{what}: {x} {triangle:?}");
            }
        }
    }
}

/// The single call refines each time, so it gets fewer of the places where that takes long.
#[test]
fn random_nets_and_outlines() {
    for k in 0..=6 {
        let mut random = Random::new(451 + k as u64);
        let mut seen = [0; 2];
        for round in 0..if k < 4 { 40 } else { 10 } {
            let size = (2 + random.below(4), 2 + random.below(4));
            let numbers = nets::random_net(&mut random, size, NUMBERS[round % 4]);
            let most = 1 + random.below(size.0 * size.1);
            let bytes = shapes::grown(&mut random, size, most);
            let mut refined = Refined::new(&numbers, &bytes, size, k);
            for (n, place) in refined.places(&mut random).into_iter().enumerate() {
                refined.check(place);
                if k < 3 || n % 20 == 0 {
                    refined.check_at_once(place);
                }
            }
            seen = [0, 1].map(|n| seen[n] + refined.seen[n]);
        }
        println!("{k} steps, off the door and on it: {seen:?}");
        assert!(seen.iter().all(|&seen| seen >= 500), "{k} steps: {seen:?}");
    }
}

/// Every vertex of the refined net, and the middle of its edges, for all connected outlines.
#[test]
fn every_refined_vertex_and_edge() {
    let mut random = Random::new(461);
    for (size, steps) in [((2, 2), 4), ((3, 2), 3), ((2, 3), 3), ((3, 3), 1)] {
        for k in 0..=steps {
            let numbers = nets::random_net(&mut random, size, NUMBERS[k % 4]);
            for number in 1..1 << (2 * (size.0 - 1) * (size.1 - 1)) {
                let bytes = shapes::numbered(size, number);
                if !Door::new(&bytes, size).connected() {
                    continue;
                }
                let mut refined = Refined::new(&numbers, &bytes, size, k);
                for q in 0..=2 * (refined.fine.1 - 1) {
                    for p in 0..=2 * (refined.fine.0 - 1) {
                        refined.check((512 * p, 512 * q));
                    }
                }
            }
        }
    }
}

#[test]
fn the_greatest_refined_net() {
    let mut random = Random::new(462);
    let size = (17, 17);
    let numbers = nets::random_net(&mut random, size, NUMBERS[3]);
    for bytes in [shapes::spiral(size), shapes::staircase(size)] {
        let mut refined = Refined::new(&numbers, &bytes, size, 6);
        let places = refined.places(&mut random);
        places
            .iter()
            .step_by(4)
            .for_each(|&place| refined.check(place));
        refined.check_at_once((1024 * 1024, 1024 * 1024));
        refined.check_at_once((1 << 19, 1 << 18));
        assert!(refined.seen.iter().all(|&seen| seen > 10));
    }
}
