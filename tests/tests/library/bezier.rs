//! Bézier nets of random nets against exact values.

use ups_tests::kernel::LentNet;
use ups_tests::nets::{self, NUMBERS};
use ups_tests::oracle::{self, Kind, Net, Triangle};
use ups_tests::random::Random;
use ups_tests::record;

fn check_all_triangles(numbers: &[i32], size: (usize, usize)) {
    let lent = LentNet::new(numbers);
    let net = Net::new(numbers, size.0, size.1);
    for j in 0..size.1 - 1 {
        for i in 0..size.0 - 1 {
            for (down, kind) in [(0, Kind::Up), (1, Kind::Down)] {
                let triangle = Triangle::new(kind, i, j);
                let expected = oracle::bezier_numbers(&net, triangle);
                // The output is sometimes longer than the result.
                let out_len = 57 + (i + j) % 3;
                let answer = lent.bezier_net(size, (i, j), down, out_len);
                assert_eq!(answer, Ok(expected), "{size:?} {triangle:?}");
            }
        }
    }
}

#[test]
fn every_triangle_of_random_nets() {
    let mut random = Random::new(31);
    for round in 0..400 {
        let size = nets::random_size(&mut random);
        let numbers = nets::random_net(&mut random, size, NUMBERS[round % 4]);
        check_all_triangles(&numbers, size);
    }
}

#[test]
fn every_triangle_of_long_narrow_nets() {
    let mut random = Random::new(32);
    for size in [(1025, 2), (2, 1025)] {
        let numbers = nets::random_net(&mut random, size, nets::Numbers::Mixed);
        check_all_triangles(&numbers, size);
    }
}

/// Each number of a cell alone, so that every weight is seen by itself.
#[test]
fn one_number_at_a_time() {
    let count = record::numbers((2, 2));
    for position in 0..count {
        for value in [1, -1, oracle::LIMIT, -oracle::LIMIT] {
            let mut numbers = vec![0; count];
            numbers[position] = value;
            check_all_triangles(&numbers, (2, 2));
        }
    }
}
