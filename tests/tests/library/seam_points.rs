//! The points on both sides of a seam by running: the answers are the oracle's, the points keep
//! near each other and near the exact spline of the starting net, and they are equal after as many
//! steps.

use ups_tests::kernel::{Junk, LentNet, Number, Room};
use ups_tests::nets::{self, Numbers, NUMBERS};
use ups_tests::oracle::{triangles_at, Net, Point, EDGE, LIMIT};
use ups_tests::random::Random;
use ups_tests::rational::Rational;
use ups_tests::refinement::{point_of, refined, refined_size};
use ups_tests::seam::{one_place, RefinedPlace, Sides, SEAM_NUMBERS};

type Size = (usize, usize);

/// All kinds of numbers, those with many halves first.
const KINDS: [Numbers; 5] = [
    Numbers::Tiny,
    NUMBERS[0],
    NUMBERS[1],
    NUMBERS[2],
    NUMBERS[3],
];

/// Each pair of depths up to `most`.
fn pairs(most: usize) -> impl Iterator<Item = [usize; 2]> {
    (0..=most).flat_map(move |k| (0..=most).map(move |l| [k, l]))
}

/// A starting net, and the oracle's nets after 0, 1, 2 and more steps.
struct Depths<'a> {
    start: Net<'a>,
    size: Size,
    lent: LentNet,
    nets: Vec<Vec<i32>>,
}

impl<'a> Depths<'a> {
    fn new(numbers: &'a [i32], size: Size, most: usize) -> Self {
        let mut nets = vec![refined(numbers, size, 0)];
        for k in 0..most {
            let fine = refined_size(size, k).expect("a size");
            nets.push(refined(&nets[k], fine, 1));
        }
        Depths {
            start: Net::new(numbers, size.0, size.1),
            size,
            lent: LentNet::new(numbers),
            nets,
        }
    }

    /// The grid of the coarser of two nets, whose places are on both.
    fn coarser(&self, [k, l]: [usize; 2]) -> Size {
        refined_size(self.size, k.min(l)).expect("a size")
    }

    /// Places of all kinds of the coarser grid, one of so many.
    fn places(&self, random: &mut Random, steps: [usize; 2], of: usize) -> Vec<Size> {
        let all = nets::places(random, self.coarser(steps));
        let first = random.below(of);
        all.into_iter().skip(first).step_by(of).collect()
    }

    /// The library's answer in this room, after comparison with the oracle's.
    fn sides_in(&self, steps: [usize; 2], place: Size, rooms: [Room; 2], points: usize) -> Sides {
        let places = one_place(steps, place);
        let answer = self.lent.seam_points(self.size, places, rooms, points);
        let what = format!("{:?}, {places:?}", self.size);
        let sides = answer.unwrap_or_else(|number| panic!("{what}: {number}"));
        for (side, at) in places.into_iter().enumerate() {
            let (net, due) = (&sides.nets[side], &self.nets[at.k]);
            assert!(net == due, "{what}: another net after {} steps", at.k);
            let point = at.point_of(due, self.size);
            assert_eq!(sides.points[side], point, "{what}: side {side}");
        }
        sides
    }

    /// In the room that is needed, with the promises of the points.
    fn check(&self, steps: [usize; 2], place: Size) -> Sides {
        let rooms = steps.map(|k| Room::of_steps(self.size, k, 0));
        let sides = self.sides_in(steps, place, rooms, SEAM_NUMBERS);
        check_promises(&self.start, one_place(steps, place), sides.points);
        sides
    }
}

/// The promise of the seam, and demand 3 of each point.
fn check_promises(start: &Net, places: [RefinedPlace; 2], points: [[i32; 3]; 2]) {
    let what = format!("{} by {}, {places:?}: {points:?}", start.w, start.h);
    let [one, two] = places;
    for (a, b) in points[0].into_iter().zip(points[1]) {
        let twice = 2 * a.abs_diff(b) as usize;
        assert!(twice <= one.k + two.k + 2, "{what}");
        assert!(one.k != two.k || a == b, "{what}");
    }
    assert_eq!(one.exact(start), two.exact(start), "{what}");
    for (at, point) in places.into_iter().zip(points) {
        let bound = Rational::new(at.k as i128 + 1, 2);
        for (x, exact) in point.into_iter().zip(at.exact(start)) {
            let error = Rational::from(x) - exact;
            assert!(-bound <= error && error <= bound, "{what}");
        }
        let (p, q) = (at.place.0 as i128, at.place.1 as i128);
        for triangle in triangles_at(start.w, start.h, p, q, EDGE << at.k) {
            for (coordinate, x) in point.into_iter().enumerate() {
                let (least, greatest) = start.control_range(triangle, coordinate);
                assert!((least..=greatest).contains(&x), "{what}, {triangle:?}");
            }
        }
    }
}

/// One cell at every pair of depths, with numbers of each kind, at places of each kind.
#[test]
fn one_cell_at_all_pairs_of_depths() {
    let mut random = Random::new(801);
    for kind in KINDS {
        let numbers = nets::random_net(&mut random, (2, 2), kind);
        let depths = Depths::new(&numbers, (2, 2), 6);
        for steps @ [k, l] in pairs(6) {
            let of = if k.max(l) < 4 { 4 } else { 16 };
            for place in depths.places(&mut random, steps, of) {
                depths.check(steps, place);
            }
        }
    }
}

/// The exact value of the refined net, which is rounded once.
fn exact_after(depths: &Depths, at: RefinedPlace) -> Point {
    let (w, h) = refined_size(depths.size, at.k).expect("a size");
    let net = Net::new(&depths.nets[at.k], w, h);
    net.exact(at.place.0 as i128, at.place.1 as i128, EDGE)
}

/// Small numbers at quarters of an edge, where many exact values are halves, of both signs. After
/// many steps the nets are so even that there are fewer.
#[test]
fn halves() {
    let mut random = Random::new(810);
    let mut seen = [[0; 2]; 7];
    for round in 0..6 {
        let kind = [Numbers::Tiny, Numbers::Small][round % 2];
        let numbers = nets::random_net(&mut random, (2, 2), kind);
        let depths = Depths::new(&numbers, (2, 2), 6);
        for steps @ [k, l] in pairs(6) {
            let of = if k.max(l) < 4 { 5 } else { 20 };
            let quarters = nets::places_at(&mut random, depths.coarser(steps), 4);
            for (p, q) in quarters.into_iter().step_by(of) {
                let place = (256 * p, 256 * q);
                depths.check(steps, place);
                let [at, _] = one_place(steps, place);
                for x in exact_after(&depths, at) {
                    let half = x.denominator() == 2;
                    seen[k][usize::from(x < Rational::ZERO)] += usize::from(half);
                }
            }
        }
    }
    println!("halves above and below zero by steps: {seen:?}");
    let few = &seen[..4];
    assert!(few.as_flattened().iter().all(|&seen| seen >= 5));
}

#[test]
fn nets_of_other_sizes() {
    let mut random = Random::new(802);
    for round in 0..10 {
        let size = (2 + random.below(4), 2 + random.below(4));
        let numbers = nets::random_net(&mut random, size, KINDS[round % 5]);
        let depths = Depths::new(&numbers, size, 3);
        for steps in pairs(3) {
            for place in depths.places(&mut random, steps, 16) {
                depths.check(steps, place);
            }
        }
    }
    // As long and as high as so many steps take.
    for (size, most) in [((65, 2), 4), ((2, 129), 3), ((513, 2), 1), ((2, 1025), 0)] {
        let numbers = nets::random_net(&mut random, size, Numbers::Mixed);
        let depths = Depths::new(&numbers, size, most);
        for k in 0..=most {
            let steps = [k, most - k];
            for place in depths.places(&mut random, steps, 40) {
                depths.check(steps, place);
            }
        }
    }
}

/// All numbers at the ends of the range, and next to them.
#[test]
fn numbers_at_the_ends_of_the_range() {
    let mut random = Random::new(803);
    for ends in [[LIMIT, LIMIT - 1], [-LIMIT, 1 - LIMIT], [LIMIT, 1 - LIMIT]] {
        let numbers: Vec<i32> = (0..36).map(|_| random.pick(&ends)).collect();
        let depths = Depths::new(&numbers, (2, 2), 6);
        for steps in pairs(6) {
            for place in depths.places(&mut random, steps, 40) {
                depths.check(steps, place);
            }
        }
    }
}

/// Every vertex of the coarser net and the middle of every edge of it, among them every vertex of
/// the starting net.
#[test]
fn every_vertex_and_middle() {
    let mut random = Random::new(804);
    for (size, kind) in [((2, 2), Numbers::Tiny), ((3, 2), Numbers::Small)] {
        let numbers = nets::random_net(&mut random, size, kind);
        let depths = Depths::new(&numbers, size, 3);
        for steps in pairs(3) {
            let (w, h) = depths.coarser(steps);
            for q in 0..=2 * (h - 1) {
                for p in 0..=2 * (w - 1) {
                    depths.check(steps, (512 * p, 512 * q));
                }
            }
        }
    }
}

/// Along the border, the edges and the midlines of one cell, at odd places next to them too.
#[test]
fn lines_of_one_cell() {
    let mut random = Random::new(805);
    let numbers = nets::random_net(&mut random, (2, 2), Numbers::Small);
    let depths = Depths::new(&numbers, (2, 2), 6);
    for steps @ [k, l] in [[0, 1], [0, 6], [1, 2], [2, 1], [3, 0], [3, 5], [6, 2]] {
        let edge = 1024 << k.min(l);
        for t in (0..=8).map(|n| n * edge / 8 + usize::from(n % 8 > 0)) {
            let t = t.min(edge);
            let seams = [(t, 0), (t, edge), (0, t), (edge, t), (t, edge - t)];
            let inside = [(t, t), (t / 2, edge - t), (edge - t, t / 2)];
            for place in seams.into_iter().chain(inside) {
                depths.check(steps, place);
            }
        }
    }
}

#[test]
fn sides_exchanged() {
    let mut random = Random::new(806);
    let numbers = nets::random_net(&mut random, (3, 2), Numbers::Mixed);
    let depths = Depths::new(&numbers, (3, 2), 4);
    for steps @ [k, l] in pairs(4) {
        for place in depths.places(&mut random, steps, 40) {
            let Sides { nets, points } = depths.check(steps, place);
            let exchanged = depths.check([l, k], place);
            assert_eq!(exchanged.points, [points[1], points[0]]);
            assert!(exchanged.nets.iter().eq(nets.iter().rev()));
        }
    }
}

/// What lies in the memory before.
const JUNK: [Junk<i32>; 4] = [i32::canary, |_| 0, |_| i32::MIN, |position| position as i32];

/// Slices of the exact lengths and longer ones, whatever they hold before. Below two steps a
/// scratch may be empty, and one that is lent stays as it was. The wrapper asserts what stays.
#[test]
fn longer_slices_and_what_lay_there_before() {
    let mut random = Random::new(807);
    let numbers = nets::random_net(&mut random, (3, 2), Numbers::Mixed);
    let depths = Depths::new(&numbers, (3, 2), 3);
    for steps in pairs(3) {
        for junk in JUNK {
            for extra in [[0, 70], [1, 0], [500, 1]] {
                let room = |side: usize| Room {
                    junk,
                    ..Room::of_steps((3, 2), steps[side], extra[side])
                };
                let rooms = [room(0), room(1)];
                depths.sides_in(steps, (300, 700), rooms, SEAM_NUMBERS + extra[0]);
            }
        }
    }
}

/// Both copies, and twice the surface point.
#[test]
fn no_steps_on_either_side() {
    let mut random = Random::new(808);
    for kind in KINDS {
        let numbers = nets::random_net(&mut random, (4, 3), kind);
        let depths = Depths::new(&numbers, (4, 3), 0);
        for place in depths.places(&mut random, [0, 0], 1) {
            let Sides { nets, points } = depths.check([0, 0], place);
            let due = depths.lent.surface_point((4, 3), place, 3);
            assert_eq!(points.map(Ok), [due; 2], "{place:?}");
            assert!(nets.iter().all(|net| *net == numbers));
        }
    }
}

/// 17 by 17 by six steps. The nets are those that refining gives.
#[test]
fn the_greatest_refined_nets() {
    let mut random = Random::new(809);
    let (size, last) = ((17, 17), 1024 * 1024);
    let numbers = nets::random_net(&mut random, size, Numbers::Mixed);
    let lent = LentNet::new(&numbers);
    let start = Net::new(&numbers, 17, 17);
    let refined = |k| lent.refine(size, k, Room::of_steps(size, k, 0));
    let due = [5, 6].map(|k| refined(k).expect("accepted"));
    for (steps, place) in [([6, 6], (last - 1, 123_457)), ([6, 5], (77_777, last / 2))] {
        let places = one_place(steps, place);
        let rooms = steps.map(|k| Room::of_steps(size, k, 0));
        let answer = lent.seam_points(size, places, rooms, SEAM_NUMBERS);
        let Sides { nets, points } = answer.expect("accepted");
        for (side, at) in places.into_iter().enumerate() {
            assert!(nets[side] == due[at.k - 5], "{places:?}: another net");
            let fine = refined_size(size, at.k).expect("a size");
            assert_eq!(points[side], point_of(&nets[side], fine, at.place));
        }
        check_promises(&start, places, points);
    }
}
