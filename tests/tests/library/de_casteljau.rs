//! The oracle's de Casteljau steps against its exact value, and against source document 000.

use ups_tests::de_casteljau::{indices, steps, steps_in, Ordinates, Steps};
use ups_tests::kernel::LentNet;
use ups_tests::nets::{self, Numbers, NUMBERS};
use ups_tests::oracle::{self, triangles_at, Kind, Net, Triangle, EDGE};
use ups_tests::random::Random;
use ups_tests::rational::Rational;

type Size = (usize, usize);

/// In each triangle that holds the place: τ is at least 0 and sums to 1, there are four averages,
/// each between the least and the greatest of its points, and the last is the exact value.
fn check_steps(net: &Net, (p, q): Size, edge: i128) {
    let (along, up) = (p as i128, q as i128);
    for triangle in triangles_at(net.w, net.h, along, up, edge) {
        let steps = steps_in(net, triangle, (p, q), edge);
        let [a, b, g] = steps.tau;
        assert!(steps.tau.iter().all(|&share| share >= Rational::ZERO));
        assert_eq!(a + b + g, Rational::whole(1), "({p}, {q})");
        assert_eq!(steps.averages().count(), 4);
        for (average, points) in steps.averages() {
            for n in 0..3 {
                let values = points.map(|point| point[n]);
                let least = values.into_iter().min().expect("three");
                let greatest = values.into_iter().max().expect("three");
                assert!((least..=greatest).contains(&average[n]), "({p}, {q})");
            }
        }
        assert_eq!(steps.value(), net.exact(along, up, edge), "({p}, {q})");
    }
}

#[test]
fn steps_at_random_places() {
    let mut random = Random::new(511);
    for round in 0..40 {
        let size = nets::random_size(&mut random);
        let numbers = nets::random_net(&mut random, size, NUMBERS[round % 4]);
        let net = Net::new(&numbers, size.0, size.1);
        let edge = 1024 << (round % 3);
        for place in nets::places_at(&mut random, size, edge) {
            check_steps(&net, place, edge as i128);
        }
    }
}

/// Different shares, equal ones and shares of 0, in all orders and in both triangles of a cell.
#[test]
fn steps_at_all_orders_of_the_shares() {
    let mut random = Random::new(512);
    let numbers = nets::random_net(&mut random, (4, 4), Numbers::Mixed);
    let (lent, net) = (LentNet::new(&numbers), Net::new(&numbers, 4, 4));
    for [a, b] in [
        [1000, 20],
        [342, 341],
        [342, 342],
        [600, 212],
        [512, 512],
        [701, 323],
        [1024, 0],
    ] {
        let d = 1024 - a - b;
        for [x, y, z] in [
            [a, b, d],
            [a, d, b],
            [b, a, d],
            [b, d, a],
            [d, a, b],
            [d, b, a],
        ] {
            let up = (Kind::Up, (1024 + y, 1024 + z));
            let down = (Kind::Down, (2048 - y, 2048 - x));
            for (kind, place @ (p, q)) in [up, down] {
                let shares = Triangle::new(kind, 1, 1).shares(p as i128, q as i128, EDGE);
                assert_eq!(shares, [x, y, z].map(|share| share as i128));
                check_steps(&net, place, EDGE);
                let due = oracle::rounded(steps(&net, place, EDGE).value());
                assert_eq!(lent.surface_point((4, 4), place, 3), Ok(due), "{place:?}");
            }
        }
    }
}

/// In the door corner x and y are 1,200 for an edge, so that τ is seen to be the place's. z is
/// worked out by hand: s, u, v, r, m and z are 40, 80, 80, 40, 40 and 80/3, and τ is 1/8, 1/2, 3/8.
#[test]
fn steps_in_the_door_corner() {
    let numbers = nets::door_corner(120);
    let net = Net::new(&numbers, 2, 2);
    for (p, q) in nets::places(&mut Random::new(513), (2, 2)) {
        let [x, y, _] = steps(&net, (p, q), EDGE).value();
        let due = [p, q].map(|t| Rational::new(1200 * t as i128, EDGE));
        assert_eq!([x, y], due);
    }
    let steps = steps(&net, (384, 128), EDGE);
    let averages: Vec<_> = steps.averages().map(|(average, _)| average[2]).collect();
    let due = [(75, 1), (45, 1), (40, 1), (375, 8)];
    assert_eq!(averages, due.map(|(n, d)| Rational::new(n, d)));
}

/// Formulas 2.5 and 2.9: the steps of ordinates of any degree give the sum of Bernstein's
/// polynomials.
#[test]
fn steps_of_any_degree() {
    let mut random = Random::new(514);
    let factorial = |n: usize| (1..=n as i128).product::<i128>();
    for m in [0, 1, 2, 3, 4, 5] {
        let a = random.between(0, 100);
        let b = random.between(0, 100 - a);
        let tau = [a, b, 100 - a - b].map(|share| Rational::new(share.into(), 100));
        let mut number = |_| random.between(-50, 50).into();
        let ordinates: Ordinates = indices(m).map(|at| (at, [0; 3].map(&mut number))).collect();
        let mut due = [Rational::ZERO; 3];
        for (at, point) in &ordinates {
            let count = factorial(m) / at.map(factorial).iter().product::<i128>();
            let powers = (0..3).flat_map(|n| vec![tau[n]; at[n]]);
            let weight = powers.fold(Rational::whole(count), |weight, share| weight * share);
            due = [0, 1, 2].map(|n| due[n] + weight * point[n]);
        }
        assert_eq!(Steps::new(ordinates, m, tau).value(), due, "degree {m}");
    }
}
