//! Files changed at random: the library's reader and the oracle's give the same answer.

use ups_tests::call::Reading;
use ups_tests::changes;
use ups_tests::netfile;
use ups_tests::nets::{self, Numbers};
use ups_tests::random::Random;

const FILES: usize = 200_000;

/// The length of a slice for a result of `needed` numbers, sometimes too short.
fn lent_len(random: &mut Random, needed: usize) -> usize {
    match random.below(24) {
        0 => needed - 1,
        1 => random.below(needed),
        2..12 => needed + random.below(80),
        _ => needed,
    }
}

#[test]
fn both_readers_give_the_same_answer() {
    let mut random = Random::new(101);
    let mut seen = [0; 10];
    for _ in 0..FILES {
        let size = (2 + random.below(3), 2 + random.below(3));
        let net = nets::random_net(&mut random, size, Numbers::Mixed);
        let mut file = netfile::file(&net, size);
        for _ in 0..random.below(4) {
            changes::change(&mut random, &mut file);
        }
        let reading = Reading {
            file,
            net_len: lent_len(&mut random, net.len()),
            size_len: lent_len(&mut random, 2),
        };
        let number = reading.check().err().unwrap_or(0);
        seen[number as usize] += 1;
    }
    println!("files by refusal: {seen:?}");
    for number in [0, 1, 3, 5, 7, 8, 9] {
        assert!(
            seen[number] >= 1000,
            "too few files with {number}: {seen:?}"
        );
    }
}
