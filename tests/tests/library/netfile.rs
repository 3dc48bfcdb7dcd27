//! Files of nets: written, read back and written again.

use ups_tests::kernel::{LentFile, LentNet};
use ups_tests::netfile::{self, FileNet};
use ups_tests::nets::{self, Numbers, NUMBERS};
use ups_tests::oracle::LIMIT;
use ups_tests::random::Random;
use ups_tests::record;

/// Every output is longer than its result by `extra`.
fn check(numbers: &[i32], size: (usize, usize), extra: usize) {
    let len = netfile::file_len(size.0, size.1).expect("a length");
    let write = |net: &[i32]| LentNet::new(net).write(size, len + extra, 1 + extra);
    let file = write(numbers).expect("accepted");
    let expected = netfile::write(numbers, size, len, 1).expect("accepted");
    assert!(file == expected, "{size:?}: the bytes differ");

    let net = FileNet {
        size,
        numbers: numbers.to_vec(),
    };
    let back = LentFile::new(&file).read(numbers.len() + extra, 2 + extra);
    assert!(back.as_ref() == Ok(&net), "{size:?}: read back");
    let own = netfile::read(&file, numbers.len(), 2);
    assert!(own == back, "{size:?}: the readers differ");

    let again = write(&net.numbers);
    assert!(again == Ok(file), "{size:?}: written again");
}

#[test]
fn random_nets() {
    let mut random = Random::new(81);
    for round in 0..4000 {
        let size = nets::random_size(&mut random);
        let numbers = nets::random_net(&mut random, size, NUMBERS[round % 4]);
        let extra = random.pick(&[0, 1, 2, 3, 4, 100]);
        check(&numbers, size, extra);
    }
}

#[test]
fn every_small_size() {
    let mut random = Random::new(82);
    for h in 2..20 {
        for w in 2..20 {
            let numbers = nets::random_net(&mut random, (w, h), Numbers::Mixed);
            check(&numbers, (w, h), 0);
        }
    }
}

#[test]
fn long_narrow_nets() {
    let mut random = Random::new(83);
    for size in [
        (1025, 2),
        (2, 1025),
        (1024, 3),
        (3, 1024),
        (100, 3),
        (3, 100),
    ] {
        for numbers in NUMBERS {
            let numbers = nets::random_net(&mut random, size, numbers);
            for extra in [0, 1] {
                check(&numbers, size, extra);
            }
        }
    }
}

#[test]
fn medium_nets() {
    let mut random = Random::new(84);
    for size in [(17, 17), (65, 33), (33, 65), (129, 129), (255, 257)] {
        for numbers in NUMBERS {
            let numbers = nets::random_net(&mut random, size, numbers);
            let extra = random.below(2000);
            check(&numbers, size, extra);
        }
    }
}

#[test]
fn the_greatest_net() {
    let size = (1025, 1025);
    let numbers = nets::random_net(&mut Random::new(85), size, Numbers::Mixed);
    check(&numbers, size, 0);
}

/// Each number of a 2 by 2 net alone, with every length of payload on both sides of zero.
#[test]
fn one_number_at_a_time() {
    let count = record::numbers((2, 2));
    for position in 0..count {
        for power in 0..=24 {
            for near in [-1, 0, 1] {
                for sign in [-1, 1] {
                    let value = sign * ((1 << power) + near);
                    if (-LIMIT..=LIMIT).contains(&value) {
                        let mut numbers = vec![0; count];
                        numbers[position] = value;
                        check(&numbers, (2, 2), 0);
                    }
                }
            }
        }
    }
}

/// The two sides are told apart, also where their product is the same.
#[test]
fn a_net_and_the_same_numbers_with_the_sides_exchanged() {
    let mut random = Random::new(86);
    for (w, h) in [(2, 3), (2, 1025), (7, 4), (16, 9)] {
        let numbers = nets::random_net(&mut random, (w, h), Numbers::Large);
        check(&numbers, (w, h), 0);
        check(&numbers, (h, w), 0);
    }
}
