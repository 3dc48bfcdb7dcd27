//! Bounds of the surface point.

use ups_tests::kernel::LentNet;
use ups_tests::nets::{self, NUMBERS};
use ups_tests::oracle::{self, triangles_at, Net, EDGE};
use ups_tests::random::Random;
use ups_tests::rational::is_nearest;
use ups_tests::record;

#[test]
fn the_point_lies_between_the_control_values_of_each_triangle_that_holds_it() {
    let mut random = Random::new(41);
    for round in 0..400 {
        let (w, h) = nets::random_size(&mut random);
        let numbers = nets::random_net(&mut random, (w, h), NUMBERS[round % 4]);
        let lent = LentNet::new(&numbers);
        let net = Net::new(&numbers, w, h);
        for (p, q) in nets::places(&mut random, (w, h)) {
            let point = lent.surface_point((w, h), (p, q), 3).expect("accepted");
            let triangles = triangles_at(w, h, p as i128, q as i128, EDGE);
            assert!(!triangles.is_empty());
            for triangle in triangles {
                for (coordinate, x) in point.into_iter().enumerate() {
                    let (least, greatest) = net.control_range(triangle, coordinate);
                    assert!((least..=greatest).contains(&x), "({p}, {q}) {triangle:?}");
                }
            }
        }
    }
}

/// Where two whole numbers are a half away, it is the one further from zero.
#[test]
fn the_point_is_within_a_half_of_the_exact_value() {
    let mut random = Random::new(42);
    for round in 0..200 {
        let (w, h) = nets::random_size(&mut random);
        let numbers = nets::random_net(&mut random, (w, h), NUMBERS[round % 4]);
        let lent = LentNet::new(&numbers);
        let net = Net::new(&numbers, w, h);
        for (p, q) in nets::places(&mut random, (w, h)) {
            let point = lent.surface_point((w, h), (p, q), 3).expect("accepted");
            for triangle in triangles_at(w, h, p as i128, q as i128, EDGE) {
                let exact = net.exact_in(triangle, p as i128, q as i128, EDGE);
                for (x, exact) in point.into_iter().zip(exact) {
                    let (n, d) = (exact.numerator(), exact.denominator());
                    assert!(is_nearest(x.into(), n, d), "({p}, {q})");
                }
            }
        }
    }
}

#[test]
fn a_constant_net_gives_its_constant_everywhere() {
    let mut random = Random::new(43);
    for value in [0, 1, -1, 7, -50, oracle::LIMIT, -oracle::LIMIT] {
        let size = (4, 3);
        let lent = LentNet::new(&vec![value; record::numbers(size)]);
        for place in nets::places(&mut random, size) {
            assert_eq!(lent.surface_point(size, place, 3), Ok([value; 3]));
        }
    }
}
