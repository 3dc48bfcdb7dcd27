//! Surface points and viewer's points of random nets against exact values.

use ups_tests::kernel::LentNet;
use ups_tests::nets::{self, NUMBERS};
use ups_tests::oracle::{self, Net, EDGE};
use ups_tests::random::Random;
use ups_tests::rational::Rational;

fn check(lent: &LentNet, net: &Net, (p, q): (usize, usize)) {
    let size = (net.w, net.h);
    let expected = oracle::rounded(net.exact(p as i128, q as i128, EDGE));
    // The output is sometimes longer than the result.
    let out_len = 3 + (p ^ q) % 4;
    let point = lent.surface_point(size, (p, q), out_len);
    assert_eq!(point, Ok(expected), "{size:?} ({p}, {q})");
    let view = lent.view_point(size, (p, q), out_len);
    let bits = oracle::view_bits(expected);
    assert_eq!(view, Ok(bits), "{size:?} ({p}, {q})");
}

#[test]
fn random_nets() {
    let mut random = Random::new(21);
    for round in 0..4000 {
        let size = nets::random_size(&mut random);
        let numbers = nets::random_net(&mut random, size, NUMBERS[round % 4]);
        let lent = LentNet::new(&numbers);
        let net = Net::new(&numbers, size.0, size.1);
        for place in nets::places(&mut random, size) {
            check(&lent, &net, place);
        }
    }
}

#[test]
fn every_vertex() {
    let mut random = Random::new(22);
    for numbers in NUMBERS {
        for size in [(2, 2), (2, 9), (9, 2), (5, 7)] {
            let numbers = nets::random_net(&mut random, size, numbers);
            let lent = LentNet::new(&numbers);
            let net = Net::new(&numbers, size.0, size.1);
            for j in 0..size.1 {
                for i in 0..size.0 {
                    check(&lent, &net, (1024 * i, 1024 * j));
                }
            }
        }
    }
}

#[test]
fn every_place_on_the_edges_and_midlines_of_one_cell() {
    let mut random = Random::new(23);
    for numbers in NUMBERS {
        let numbers = nets::random_net(&mut random, (2, 2), numbers);
        let lent = LentNet::new(&numbers);
        let net = Net::new(&numbers, 2, 2);
        for t in 0..=1024 {
            let edges = [(t, 0), (t, 1024), (0, t), (1024, t), (t, 1024 - t)];
            for place in edges {
                check(&lent, &net, place);
            }
            check(&lent, &net, (t, t));
        }
        for t in 0..=512 {
            let midlines = [
                (t, 1024 - 2 * t),
                (1024 - 2 * t, t),
                (1024 - t, 2 * t),
                (2 * t, 1024 - t),
            ];
            for place in midlines {
                check(&lent, &net, place);
            }
        }
    }
}

#[test]
fn a_lattice_of_places_over_one_cell() {
    let mut random = Random::new(24);
    for numbers in NUMBERS {
        let numbers = nets::random_net(&mut random, (2, 2), numbers);
        let lent = LentNet::new(&numbers);
        let net = Net::new(&numbers, 2, 2);
        for q in (0..=1024).step_by(31) {
            for p in (0..=1024).step_by(31) {
                check(&lent, &net, (p, q));
            }
        }
    }
}

#[test]
fn long_narrow_nets() {
    let mut random = Random::new(25);
    for size in [(1025, 2), (2, 1025), (100, 3), (3, 100)] {
        let numbers = nets::random_net(&mut random, size, nets::Numbers::Mixed);
        let lent = LentNet::new(&numbers);
        let net = Net::new(&numbers, size.0, size.1);
        for place in nets::places(&mut random, size) {
            check(&lent, &net, place);
        }
    }
}

/// An exact value is so many of these parts of a unit: 36 times 1,024 squared over 12, since each
/// of the nine factors is a multiple of 12.
const PARTS: i128 = 3 * EDGE * EDGE;

/// The inverse of an odd number that 3 does not divide: of PARTS, 3 times a power of 2, the order
/// of every such number divides 2^18.
fn inverse(number: i128) -> i128 {
    let mut inverse = 1;
    for _ in 1..1 << 18 {
        inverse = inverse * number % PARTS;
    }
    inverse
}

/// One control value is set so that the exact value lies at a half and as near to it as it can: a
/// rounding on the way, however slight, shows there.
#[test]
fn beside_halves() {
    let mut random = Random::new(26);
    let mut met = 0;
    while met < 60 {
        let mut numbers = nets::random_net(&mut random, (2, 2), nets::Numbers::Small);
        let (p, q) = (random.below(1025), random.below(1025));
        let n = random.below(numbers.len());
        let mut value = |number: i32| {
            numbers[n] = number;
            let exact = Net::new(&numbers, 2, 2).exact(p as i128, q as i128, EDGE);
            let parts = exact[n % 3] * Rational::whole(PARTS);
            assert_eq!(parts.denominator(), 1);
            parts.numerator()
        };
        let none = value(0);
        let factor = value(1) - none;
        if factor % 2 == 0 || factor % 3 == 0 {
            continue;
        }
        met += 1;
        let inverse = inverse(factor);
        for offset in -3..=3 {
            let rest = PARTS / 2 + offset - none;
            let number = (rest % PARTS * inverse).rem_euclid(PARTS) - PARTS * (met % 2);
            numbers[n] = i32::try_from(number).expect("in range");
            check(&LentNet::new(&numbers), &Net::new(&numbers, 2, 2), (p, q));
        }
    }
}
