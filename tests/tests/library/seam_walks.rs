//! Walks along seams and beside them: points against de Casteljau's steps in exact rationals.

use std::collections::BTreeSet;
use ups_tests::de_casteljau::steps;
use ups_tests::kernel::{DoorRoom, LentNet, LentOutline, Room};
use ups_tests::nets::{self, NUMBERS};
use ups_tests::oracle::{self, chosen_triangle, Net, Vertex, EDGE, LIMIT};
use ups_tests::random::Random;
use ups_tests::record::{self, POINT_RECORD};
use ups_tests::{refinement, shapes};

type Size = (usize, usize);

const SMALL: [Size; 4] = [(2, 2), (3, 2), (2, 3), (4, 3)];

/// The places of lines over the net, one after another in steps of `by`: along rows, columns and
/// diagonals of the cells, and across these diagonals. The lines begin on the border, `beside` its
/// vertices. With 0 the first three kinds are the seams, borders among them, where G is 0.
fn lines((w, h): Size, beside: usize, by: usize) -> Vec<Size> {
    let (last_p, last_q) = (1024 * (w - 1), 1024 * (h - 1));
    let starts = |last| (beside..=last).step_by(1024);
    let bottom = starts(last_p).map(|p| (p, 0));
    let [left, right] = [0, last_p].map(|p| starts(last_q).map(move |q| (p, q)));
    let rows = left.clone().map(|start| (start, (1, 0)));
    let columns = bottom.clone().map(|start| (start, (0, 1)));
    let diagonals = bottom.clone().chain(right).map(|start| (start, (-1, 1)));
    let across = bottom.chain(left).map(|start| (start, (1, 1)));
    let lines = rows.chain(columns).chain(diagonals).chain(across);
    let places = lines.flat_map(|((p, q), (x, y)): (Size, (isize, isize))| {
        // Below 0 it is no place either.
        let at = move |t| (p.wrapping_add_signed(x * t), q.wrapping_add_signed(y * t));
        let places = (0..).step_by(by).map(at);
        places.take_while(|&(p, q)| p <= last_p && q <= last_q)
    });
    places.collect()
}

/// Places with the surface points that are due there.
fn due(numbers: &[i32], size: Size, beside: usize, by: usize) -> Vec<(Size, [i32; 3])> {
    let net = Net::new(numbers, size.0, size.1);
    let places = lines(size, beside, by).into_iter();
    let point = |place| oracle::rounded(steps(&net, place, EDGE).value());
    places.map(|place| (place, point(place))).collect()
}

fn walk(numbers: &[i32], size: Size, beside: usize, by: usize) {
    let lent = LentNet::new(numbers);
    for (place, due) in due(numbers, size, beside, by) {
        let point = lent.surface_point(size, place, 3);
        assert_eq!(point, Ok(due), "{size:?} {place:?}");
        let view = lent.view_point(size, place, 3);
        assert_eq!(view, Ok(oracle::view_bits(due)), "{size:?} {place:?}");
    }
}

/// Two nets with another kind of numbers in each coordinate, all at one end of the range as well.
fn nets_of_all_kinds(random: &mut Random, size: Size) -> [Vec<i32>; 2] {
    let len = record::numbers(size);
    let [a, b, c, d] = NUMBERS.map(|kind| nets::random_net(random, size, kind));
    let nets = [[a, b, c], [d, vec![LIMIT; len], vec![-LIMIT; len]]];
    nets.map(|of| (0..len).map(|n| of[n % POINT_RECORD % 3][n]).collect())
}

#[test]
fn every_place_of_the_seams_of_small_nets() {
    let mut random = Random::new(501);
    for size in SMALL {
        for numbers in nets_of_all_kinds(&mut random, size) {
            walk(&numbers, size, 0, 1);
        }
    }
}

/// The corners of the chosen triangle and their order, where the shares are different and above 0.
fn inside((w, h): Size, (p, q): Size) -> Option<([Vertex; 3], [usize; 3])> {
    let (p, q) = (p as i128, q as i128);
    let triangle = chosen_triangle(w, h, p, q, EDGE);
    let shares = triangle.shares(p, q, EDGE);
    let order = oracle::order(shares);
    let [a, b, d] = order.map(|corner| shares[corner]);
    (a > b && b > d && d > 0).then_some((triangle.corners(), order))
}

/// All orders of the shares are met in each triangle.
#[test]
fn beside_the_seams_of_small_nets() {
    let mut random = Random::new(502);
    for size @ (w, h) in SMALL {
        let mut met = BTreeSet::new();
        for beside in [1, 300, 700, 2 + random.below(1020)] {
            for numbers in nets_of_all_kinds(&mut random, size) {
                walk(&numbers, size, beside, 13);
            }
            let places = lines(size, beside, 13).into_iter();
            met.extend(places.filter_map(|place| inside(size, place)));
        }
        assert_eq!(met.len(), 6 * 2 * (w - 1) * (h - 1), "{size:?}");
    }
}

#[test]
fn larger_nets() {
    let mut random = Random::new(503);
    for (size, by) in [((9, 7), 199), ((2, 99), 307), ((99, 2), 509)] {
        for numbers in nets_of_all_kinds(&mut random, size) {
            walk(&numbers, size, 0, by);
            walk(&numbers, size, random.below(1024), by);
        }
    }
}

/// Of the refined net as refining wrote it, and where one call refines and answers the point.
#[test]
fn refined_nets() {
    let mut random = Random::new(504);
    for (k, size, by) in [(1, (3, 2), 13), (2, (2, 3), 17)] {
        let [numbers, _] = nets_of_all_kinds(&mut random, size);
        let (lent, room) = (LentNet::new(&numbers), Room::of_steps(size, k, 0));
        let fine = refinement::refined_size(size, k).expect("a size");
        let refined = refinement::refined(&numbers, size, k);
        assert_eq!(lent.refine(size, k, room).as_ref(), Ok(&refined));
        for beside in [0, 300] {
            walk(&refined, fine, beside, by);
            for (place, due) in due(&refined, fine, beside, 3 * by) {
                let answer = lent.refined_point(size, k, place, room, 3);
                assert_eq!(answer.map(|answer| answer.1), Ok(due), "{k} {place:?}");
            }
        }
    }
}

/// With an outline of bytes 1 alone, the refined net as well.
#[test]
fn whole_doors() {
    let mut random = Random::new(505);
    let size = (3, 3);
    let outline = LentOutline::new(&shapes::full(size));
    let [numbers, _] = nets_of_all_kinds(&mut random, size);
    let lent = LentNet::new(&numbers);
    for beside in [0, 300] {
        for (place, due) in due(&numbers, size, beside, 7) {
            let point = lent.surface_point_outlined(&outline, size, place, 3);
            assert_eq!(point, Ok(due), "{place:?}");
            let view = lent.view_point_outlined(&outline, size, place, 3);
            assert_eq!(view, Ok(oracle::view_bits(due)), "{place:?}");
        }
        for k in [1, 2] {
            let fine = refinement::refined_size(size, k).expect("a size");
            let refined = refinement::refined(&numbers, size, k);
            for (place, due) in due(&refined, fine, beside, 101) {
                let room = DoorRoom::of_steps(size, k, 0);
                let door = lent.refined_point_outlined(&outline, size, k, place, room, 3);
                assert_eq!(door.map(|door| door.point), Ok(Some(due)), "{k} {place:?}");
            }
        }
    }
}
