//! The oracle's own parts.

use ups_tests::netfile;
use ups_tests::nets::{self, NUMBERS};
use ups_tests::oracle::{self, chosen_triangle, triangles_at};
use ups_tests::oracle::{Kind, Net, Patch, Triangle, EDGE, LIMIT};
use ups_tests::random::Random;
use ups_tests::rational::{is_nearest, nearest, Rational};
use ups_tests::record::{self, POINT_RECORD, RECORD};
use ups_tests::refinement;

fn ratio(numerator: i128, denominator: i128) -> Rational {
    Rational::new(numerator, denominator)
}

#[test]
fn rationals_are_reduced_with_a_positive_denominator() {
    for (n, d, expected) in [
        (6, 4, (3, 2)),
        (-6, 4, (-3, 2)),
        (6, -4, (-3, 2)),
        (-6, -4, (3, 2)),
        (0, -7, (0, 1)),
    ] {
        let x = ratio(n, d);
        assert_eq!((x.numerator(), x.denominator()), expected);
    }
    // Beyond 64 bits as well.
    let wide = 3 * (1 << 80);
    assert_eq!(ratio(5 * wide, 10 * wide), ratio(1, 2));
}

#[test]
fn rational_arithmetic_is_exact() {
    assert_eq!(ratio(1, 2) + ratio(1, 3), ratio(5, 6));
    assert_eq!(ratio(1, 2) + ratio(1, 2), ratio(1, 1));
    assert_eq!(ratio(1, 2) - ratio(2, 3), ratio(-1, 6));
    assert_eq!(ratio(-2, 3) * ratio(9, 4), ratio(-3, 2));
    assert_eq!(ratio(-2, 3) / ratio(-4, 9), ratio(3, 2));
    assert!(ratio(-1, 2) < ratio(-1, 3));
    assert!(ratio(2, 3) > ratio(3, 5));
    assert!(ratio(2, 4) >= ratio(1, 2));
}

#[test]
fn rounding_takes_halves_away_from_zero() {
    for (quarters, expected) in [
        (190, 48),   // 47.5
        (189, 47),   // 47.25
        (191, 48),   // 47.75
        (-190, -48), // -47.5
        (-191, -48), // -47.75
        (-189, -47), // -47.25
        (-2, -1),
        (2, 1),
        (-1, 0),
        (-3, -1),
        (0, 0),
        (-4, -1),
    ] {
        assert_eq!(
            ratio(quarters, 4).rounded(),
            expected,
            "{quarters} quarters"
        );
    }
}

/// What the library divides by: 12 in refining, or 6, 4 and 2 for one kind of vertex, 3 in
/// splitting, and `PLACE` for a point.
const DIVISORS: [i128; 6] = [12, 6, 4, 3, 2, PLACE];
const PLACE: i128 = 36 * EDGE * EDGE;

/// Numerators with each remainder for small divisors, and with those near a half and a whole number
/// for the great one, around zero and around both ends of the range.
#[test]
fn rounded_fractions_are_nearest_and_odd() {
    for d in DIVISORS {
        let end = i128::from(LIMIT) * d;
        let whole = [-end, -d, 0, d, end];
        for centre in whole.into_iter().flat_map(|n| [n - d / 2, n, n + d / 2]) {
            for n in centre - 40..=centre + 40 {
                let r = ratio(n, d).rounded();
                let fit = [r - 1, r, r + 1].map(|other| is_nearest(other, n, d));
                assert_eq!(fit, [false, true, false], "{n}/{d}: {r}");
                assert_eq!(ratio(-n, d).rounded(), -r, "{n}/{d}");
            }
        }
    }
}

/// Every remainder of the greatest divisor, above zero and below: too many to be reduced, so that
/// the whole numbers behind `rounded` are tried.
#[test]
fn every_remainder_of_a_place_is_rounded_to_the_nearest() {
    for n in 0..=PLACE {
        let r = nearest(n, PLACE);
        assert!(is_nearest(r, n, PLACE), "{n}: {r}");
        assert_eq!(nearest(-n, PLACE), -r, "{n}");
    }
}

#[test]
fn cells_and_triangles_follow_the_definition() {
    let up = |i, j| Triangle::new(Kind::Up, i, j);
    let down = |i, j| Triangle::new(Kind::Down, i, j);
    for (p, q, expected) in [
        (0, 0, up(0, 0)),
        (512, 512, up(0, 0)),
        (512, 513, down(0, 0)),
        (1023, 1023, down(0, 0)),
        (1024, 0, up(1, 0)),
        (1024, 1, up(1, 0)),
        (0, 1024, up(0, 1)),
        (1024, 1024, up(1, 1)),
        // The last column and row of 3 by 3 belong to the cells before them.
        (2048, 0, up(1, 0)),
        (2048, 1, down(1, 0)),
        (2048, 1024, up(1, 1)),
        (0, 2048, up(0, 1)),
        (1, 2048, down(0, 1)),
        (2048, 2048, down(1, 1)),
    ] {
        assert_eq!(chosen_triangle(3, 3, p, q, EDGE), expected, "({p}, {q})");
    }
    assert_eq!(
        up(2, 3).shares(2 * 1024 + 100, 3 * 1024 + 24, EDGE),
        [900, 100, 24]
    );
    assert_eq!(
        down(2, 3).shares(2 * 1024 + 1000, 3 * 1024 + 100, EDGE),
        [924, 24, 76]
    );
}

#[test]
fn a_place_lies_in_up_to_six_triangles() {
    for (p, q, count) in [
        (1024, 1024, 6),
        (0, 0, 1),
        (2048, 0, 2),
        (0, 2048, 2),
        (2048, 2048, 1),
        (1024, 0, 3),
        (500, 524, 2),
        (500, 1024, 2),
        (500, 0, 1),
        (1024, 500, 2),
        (300, 200, 1),
        (900, 800, 1),
    ] {
        let triangles = triangles_at(3, 3, p, q, EDGE);
        assert_eq!(triangles.len(), count, "({p}, {q})");
        assert!(triangles.contains(&chosen_triangle(3, 3, p, q, EDGE)));
    }
}

#[test]
fn the_exact_value_is_the_same_in_every_triangle_that_holds_the_place() {
    let mut random = Random::new(11);
    for round in 0..120 {
        let (w, h) = nets::random_size(&mut random);
        let numbers = nets::random_net(&mut random, (w, h), NUMBERS[round % 4]);
        let net = Net::new(&numbers, w, h);
        for edge in [1024, 1, 6, 7, 65536] {
            for _ in 0..12 {
                let i = random.below(w) as i128;
                let j = random.below(h) as i128;
                let t = random.below(edge as usize + 1) as i128;
                let inside = |(p, q): &(i128, i128)| {
                    (0..=edge * (w as i128 - 1)).contains(p)
                        && (0..=edge * (h as i128 - 1)).contains(q)
                };
                let places = [
                    (edge * i, edge * j),
                    (edge * i + t, edge * j),
                    (edge * i, edge * j + t),
                    (edge * i + t, edge * (j + 1) - t),
                ];
                for (p, q) in places.into_iter().filter(inside) {
                    let exact = net.exact(p, q, edge);
                    let triangles = triangles_at(w, h, p, q, edge);
                    assert!(!triangles.is_empty());
                    for triangle in triangles {
                        assert_eq!(net.exact_in(triangle, p, q, edge), exact);
                    }
                }
            }
        }
    }
}

#[test]
fn the_exact_value_does_not_depend_on_the_edge_count() {
    let mut random = Random::new(12);
    for round in 0..40 {
        let (w, h) = nets::random_size(&mut random);
        let numbers = nets::random_net(&mut random, (w, h), NUMBERS[round % 4]);
        let net = Net::new(&numbers, w, h);
        for (p, q) in nets::places(&mut random, (w, h)) {
            let (p, q) = (p as i128, q as i128);
            let exact = net.exact(p, q, EDGE);
            for factor in [2, 3, 64] {
                assert_eq!(net.exact(factor * p, factor * q, factor * EDGE), exact);
            }
        }
    }
}

/// Along a line through a place the spline is a quadratic on each side. With equal slopes on
/// both sides the second difference of twice the step is four times that of the step.
#[test]
fn the_exact_spline_has_no_kink() {
    let mut random = Random::new(13);
    // Places at multiples of 8 keep every other line of the split more than 6 units away.
    let edge = 96;
    let (w, h) = (4, 4);
    for round in 0..8 {
        let numbers = nets::random_net(&mut random, (w, h), NUMBERS[round % 4]);
        let net = Net::new(&numbers, w, h);
        for q in (8..edge * 3).step_by(8) {
            for p in (8..edge * 3).step_by(8) {
                for (x, y) in [(1, 0), (0, 1), (1, -1), (1, 1), (2, -1), (1, -2)] {
                    let second = |step: i128| {
                        let before = net.exact(p - step * x, q - step * y, edge);
                        let here = net.exact(p, q, edge);
                        let after = net.exact(p + step * x, q + step * y, edge);
                        [0, 1, 2].map(|c| before[c] - here[c] - here[c] + after[c])
                    };
                    let four = Rational::whole(4);
                    assert_eq!(second(2), second(1).map(|x| four * x), "({p}, {q})");
                }
            }
        }
    }
}

#[test]
fn bezier_points_of_an_even_net_lie_at_their_places() {
    // Control point k of a vertex lies half a step ek away, so x and y are the grid's.
    let numbers = nets::door_corner(0);
    let net = Net::new(&numbers, 2, 2);
    let patch = |kind| Patch::new(&net, Triangle::new(kind, 0, 0)).points();
    let twelfths = |points: [oracle::Point; 19]| {
        points.map(|[x, y, _]| (x / ratio(100, 1), y / ratio(100, 1)))
    };
    let expected_up = [
        (0, 0),
        (12, 0),
        (0, 12),
        (3, 0),
        (0, 3),
        (9, 0),
        (9, 3),
        (0, 9),
        (3, 9),
        (2, 2),
        (8, 2),
        (2, 8),
        (6, 0),
        (0, 6),
        (6, 6),
        (5, 2),
        (2, 5),
        (5, 5),
        (4, 4),
    ];
    let expected_down = [
        (12, 0),
        (0, 12),
        (12, 12),
        (9, 3),
        (12, 3),
        (3, 9),
        (3, 12),
        (12, 9),
        (9, 12),
        (10, 4),
        (4, 10),
        (10, 10),
        (6, 6),
        (12, 6),
        (6, 12),
        (7, 7),
        (10, 7),
        (7, 10),
        (8, 8),
    ];
    let whole = |(x, y)| (Rational::whole(x), Rational::whole(y));
    assert_eq!(twelfths(patch(Kind::Up)), expected_up.map(whole));
    assert_eq!(twelfths(patch(Kind::Down)), expected_down.map(whole));
}

/// z of c1, c2, c3 at (0, 0), (1, 0) and (0, 1) of the door corner after one step; beyond them
/// all z are 0.
#[test]
fn refined_z_of_the_door_corner() {
    for (z, expected) in [
        (120, [[80, 20, 20], [0, 60, 60], [30, 0, 60]]),
        (-120, [[-80, -20, -20], [0, -60, -60], [-30, 0, -60]]),
        // 4/6, 1/6, 1/2 and 1/4 of these, halves away from zero.
        (1, [[1, 0, 0], [0, 1, 1], [0, 0, 1]]),
        (-1, [[-1, 0, 0], [0, -1, -1], [0, 0, -1]]),
        (2, [[1, 0, 0], [0, 1, 1], [1, 0, 1]]),
        (-2, [[-1, 0, 0], [0, -1, -1], [-1, 0, -1]]),
        (3, [[2, 1, 1], [0, 2, 2], [1, 0, 2]]),
        (-3, [[-2, -1, -1], [0, -2, -2], [-1, 0, -2]]),
    ] {
        let refined = refinement::refined(&nets::door_corner(z), (2, 2), 1);
        let all_z = refined.iter().skip(2).step_by(POINT_RECORD);
        let found: Vec<i32> = all_z.copied().collect();
        let mut all = [[0; 3]; 9];
        // Row by row, three vertices each.
        [all[0], all[1], all[3]] = expected;
        assert_eq!(found, all.as_flattened(), "z = {z}");
    }
}

/// x and y of the door corner are linear, so its refined control points lie half as far from
/// vertices half as far apart.
#[test]
fn refined_x_and_y_of_the_door_corner() {
    for k in 0..=3 {
        let refined = refinement::refined(&nets::door_corner(0), (2, 2), k);
        let (side, edge) = ((1 << k) + 1, 1200 >> k);
        let mut expected = Vec::new();
        for j in 0..side {
            for i in 0..side {
                let (x, y, half) = (edge * i, edge * j, edge / 2);
                expected.extend([x + half, y, 0, x - half, y + half, 0, x, y - half, 0]);
            }
        }
        assert_eq!(refined, expected, "{k} steps");
    }
}

/// One value at the end A or B of an edge in each direction, by hand. The new vertex halves the
/// edge from A to B = A + ek; c1, c2, c3 of A are 8, 16, 24 and of B 40, 80, 120.
#[test]
fn refined_edges_in_each_direction() {
    let (a, b) = ([8, 16, 24], [40, 80, 120]);
    // The position of x of a control point; k counts from 0.
    let x = |vertex: usize, k: usize| RECORD * vertex + POINT_RECORD * k;
    for (from, to, at, expected) in [
        // e1: (80 + 120)/2, (2·8 + 16 + 80)/4, (2·8 + 24 + 120)/4
        (0, 1, 1, [100, 28, 40]),
        // e2: c2' = (120 + 40)/2, c3' = (2·16 + 24 + 120)/4, c1' = (2·16 + 8 + 40)/4
        (1, 2, 4, [20, 80, 44]),
        // e3, from the upper end: c3' = (40 + 80)/2, c1' = (2·24 + 8 + 40)/4,
        // c2' = (2·24 + 16 + 80)/4
        (2, 0, 3, [24, 36, 60]),
    ] {
        let mut numbers = vec![0; record::numbers((2, 2))];
        for k in 0..3 {
            numbers[x(from, k)] = a[k];
            numbers[x(to, k)] = b[k];
        }
        let refined = refinement::refined(&numbers, (2, 2), 1);
        let found = [0, 1, 2].map(|k| refined[x(at, k)]);
        assert_eq!(found, expected, "from vertex {from} to vertex {to}");
    }
}

/// The numbers are multiples of 12 for each step, so nothing is rounded.
#[test]
fn exact_refinement_gives_the_same_spline() {
    let mut random = Random::new(14);
    for k in 0..=3 {
        for _ in 0..12 {
            let size = (2 + random.below(3), 2 + random.below(3));
            let small = nets::random_net(&mut random, size, nets::Numbers::Small);
            let numbers: Vec<i32> = small.iter().map(|x| x * 12_i32.pow(k as u32)).collect();
            let refined = refinement::refined(&numbers, size, k);
            let start = Net::new(&numbers, size.0, size.1);
            let (w, h) = refinement::refined_size(size, k).expect("a size");
            let fine = Net::new(&refined, w, h);
            for (p, q) in nets::places(&mut random, (w, h)) {
                let (p, q) = (p as i128, q as i128);
                let exact = start.exact(p, q, EDGE << k);
                assert_eq!(fine.exact(p, q, EDGE), exact, "{size:?} ({p}, {q})");
            }
        }
    }
}

#[test]
fn sizes_after_some_steps() {
    for (size, k, expected) in [
        ((2, 2), 0, Some((2, 2))),
        ((2, 3), 1, Some((3, 5))),
        ((2, 2), 6, Some((65, 65))),
        ((17, 17), 6, Some((1025, 1025))),
        ((18, 2), 6, Some((1089, 65))),
        ((2, 2), 7, None),
        ((usize::MAX, 2), 0, Some((usize::MAX, 2))),
        ((usize::MAX, 2), 1, None),
    ] {
        assert_eq!(refinement::refined_size(size, k), expected, "{size:?} {k}");
    }
    let lens = [0, 1, 2, 3].map(|k| refinement::scratch_len((3, 2), k));
    assert_eq!(lens, [0, 0, RECORD * 15, RECORD * 45].map(Some));
}

#[test]
fn refusals_of_the_oracle_hold_for_the_greatest_sizes() {
    const MAX: usize = usize::MAX;
    let net = [0; record::numbers((2, 2))];
    // The numbers after one step and after two.
    let [once, twice] = [(3, 3), (5, 5)].map(record::numbers);
    let all = |faults: oracle::Faults| faults.iter().map(|f| f.0).collect::<Vec<_>>();
    assert_eq!(
        all(oracle::vertex_faults(&net, MAX, MAX, MAX, MAX)),
        [true; 3]
    );
    assert_eq!(
        all(oracle::point_faults(&net, (MAX, MAX), (MAX, MAX), 0)),
        [true, false, true, true, false]
    );
    assert_eq!(
        all(oracle::bezier_faults(&net, (MAX, 0), (MAX, MAX), 2, 0)),
        [true, true, false, true, false]
    );
    assert_eq!(
        all(oracle::bezier_faults(&net, (2, 2), (0, 0), 0, 57)),
        [false; 5]
    );
    assert_eq!(
        all(netfile::write_faults(&net, (MAX, MAX), MAX, 1)),
        [true, true, true, false]
    );
    assert_eq!(all(netfile::write_faults(&net, (2, 2), 156, 1)), [false; 4]);
    assert_eq!(
        all(refinement::refine_faults(&net, (MAX, MAX), MAX, MAX, MAX)),
        [true, true, true, true, false]
    );
    assert_eq!(
        all(refinement::refine_faults(&net, (2, 2), 1, once, 0)),
        [false; 5]
    );
    let far = refinement::refined_point_faults(&net, (2, 2), 2, (4097, 0), twice, once - 1, 3);
    assert_eq!(all(far), [false, false, true, false, true, false]);
}
