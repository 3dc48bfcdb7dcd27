//! Refined nets, number for number, and what is left in the lent outputs.

use ups_tests::kernel::{LentNet, Number, Room};
use ups_tests::nets::{self, Numbers, NUMBERS};
use ups_tests::oracle::LIMIT;
use ups_tests::random::Random;
use ups_tests::record::{self, RECORD};
use ups_tests::refinement;

type Size = (usize, usize);

/// Asserts that two nets are the same, and names the first place where they are not.
fn same(refined: &[i32], expected: &[i32], (w, _): Size, what: &str) {
    assert_eq!(refined.len(), expected.len(), "{what}");
    let differ = |n: &usize| refined[*n] != expected[*n];
    if let Some(n) = (0..expected.len()).find(differ) {
        let (vertex, number) = (n / RECORD, n % RECORD);
        panic!(
            "{what}: number {number} of vertex ({}, {}) is {}, expected {}",
            vertex % w,
            vertex / w,
            refined[n],
            expected[n]
        );
    }
}

/// `out` and the scratch are longer than needed by `extra`.
fn check(numbers: &[i32], size: Size, k: usize, extra: usize) {
    let room = Room::of_steps(size, k, extra);
    let refined = LentNet::new(numbers).refine(size, k, room);
    let refined = refined.unwrap_or_else(|number| panic!("{size:?}, {k} steps: {number}"));
    let expected = refinement::refined(numbers, size, k);
    let fine = refinement::refined_size(size, k).expect("a size");
    same(&refined, &expected, fine, &format!("{size:?}, {k} steps"));
}

#[test]
fn random_nets() {
    let mut random = Random::new(111);
    for round in 0..1000 {
        // Each number of steps meets each kind of numbers.
        let (k, kind) = (round % 5, NUMBERS[round / 5 % 4]);
        let size = match round % 3 {
            0 => nets::random_size(&mut random),
            1 => (2, 3 + random.below(14)),
            _ => (3 + random.below(14), 2),
        };
        let numbers = nets::random_net(&mut random, size, kind);
        let extra = random.pick(&[0, 1, RECORD - 1, RECORD, 100]);
        check(&numbers, size, k, extra);
    }
}

#[test]
fn every_small_size() {
    let mut random = Random::new(112);
    for h in 2..12 {
        for w in 2..12 {
            let numbers = nets::random_net(&mut random, (w, h), Numbers::Mixed);
            for k in 0..=2 {
                check(&numbers, (w, h), k, 0);
            }
        }
    }
}

/// Each number of a cell alone, so that every weight and its rounding is seen by itself.
#[test]
fn one_number_at_a_time() {
    let count = record::numbers((2, 2));
    for position in 0..count {
        for value in (-12..=12).chain([LIMIT, -LIMIT, LIMIT - 1, 1 - LIMIT]) {
            let mut numbers = vec![0; count];
            numbers[position] = value;
            check(&numbers, (2, 2), 1, 0);
            check(&numbers, (2, 2), 2, 0);
        }
    }
}

#[test]
fn all_numbers_of_steps() {
    let mut random = Random::new(113);
    for k in 0..=6 {
        for (size, kind) in [(2, 2), (3, 2), (2, 4), (4, 3)].into_iter().zip(NUMBERS) {
            let numbers = nets::random_net(&mut random, size, kind);
            check(&numbers, size, k, 5);
        }
    }
}

/// The longest sides that k steps take.
#[test]
fn long_narrow_nets() {
    let mut random = Random::new(114);
    for (k, side) in [(0, 1025), (1, 513), (2, 257), (3, 129), (4, 65)] {
        for size in [(side, 2), (2, side)] {
            let numbers = nets::random_net(&mut random, size, Numbers::Mixed);
            check(&numbers, size, k, 0);
        }
    }
}

#[test]
fn the_greatest_refined_net() {
    let numbers = nets::random_net(&mut Random::new(115), (17, 17), Numbers::Mixed);
    check(&numbers, (17, 17), 6, 0);
}

#[test]
fn great_nets_in_few_steps() {
    let mut random = Random::new(116);
    let numbers = nets::random_net(&mut random, (1025, 1025), Numbers::Large);
    check(&numbers, (1025, 1025), 0, 1);
    let numbers = nets::random_net(&mut random, (513, 257), Numbers::Large);
    check(&numbers, (513, 257), 1, 1);
}

#[test]
fn a_constant_net_stays_constant() {
    for value in [0, 1, -1, 7, LIMIT, -LIMIT] {
        for k in 0..=6 {
            let size = (3, 2);
            let lent = LentNet::new(&vec![value; record::numbers(size)]);
            let room = Room::of_steps(size, k, 0);
            let refined = lent.refine(size, k, room).expect("accepted");
            assert!(refined.iter().all(|&x| x == value), "{value}, {k} steps");
        }
    }
}

/// Each step rounds, so k steps are k calls of one step.
#[test]
fn steps_one_after_the_other() {
    let mut random = Random::new(117);
    for round in 0..20 {
        let size = (2 + random.below(3), 2 + random.below(3));
        let numbers = nets::random_net(&mut random, size, NUMBERS[round % 4]);
        let lent = LentNet::new(&numbers);
        let mut step_by_step = numbers.clone();
        for k in 0..=6 {
            let fine = refinement::refined_size(size, k).expect("a size");
            let at_once = lent.refine(size, k, Room::of_steps(size, k, 0));
            let what = format!("{size:?}, {k} steps");
            same(&at_once.expect("accepted"), &step_by_step, fine, &what);
            if k < 6 {
                let one = LentNet::new(&step_by_step);
                let room = Room::of_steps(fine, 1, 0);
                step_by_step = one.refine(fine, 1, room).expect("accepted");
            }
        }
    }
}

/// What can lie in `out` and the scratch before.
const JUNK: [fn(usize) -> i32; 6] = [
    i32::canary,
    |n| i32::canary(n + 1_000_000),
    |n| i32::canary(n) % LIMIT,
    |_| 0,
    |_| i32::MIN,
    |_| i32::MAX,
];

/// For outputs of the exact lengths and for longer ones.
#[test]
fn what_lay_there_before_does_not_matter() {
    let mut random = Random::new(118);
    for k in 0..=6 {
        for (size, kind) in [(2, 3), (3, 2), (2, 2), (3, 3)].into_iter().zip(NUMBERS) {
            let numbers = nets::random_net(&mut random, size, kind);
            let lent = LentNet::new(&numbers);
            let fine = refinement::refined_size(size, k).expect("a size");
            let place = (random.below(1024 * fine.0 - 1023), 1024 * (fine.1 - 1));
            let expected = refinement::refined(&numbers, size, k);
            let point = refinement::point_of(&expected, fine, place);
            for junk in JUNK {
                for extra in [0, 70] {
                    let what = format!("{size:?}, {k} steps, {extra} more");
                    let room = Room {
                        junk,
                        ..Room::of_steps(size, k, extra)
                    };
                    let refined = lent.refine(size, k, room).expect("accepted");
                    same(&refined, &expected, fine, &what);
                    let answer = lent.refined_point(size, k, place, room, 3 + extra);
                    let (refined, answered) = answer.expect("accepted");
                    same(&refined, &expected, fine, &what);
                    assert_eq!(answered, point, "{what}");
                }
            }
        }
    }
}

/// Below two steps the scratch may be empty, and one that is lent stays as it was, which the
/// wrappers assert.
#[test]
fn fewer_than_two_steps_leave_the_scratch_alone() {
    let mut random = Random::new(119);
    for size in [(2, 2), (5, 3), (3, 5)] {
        let numbers = nets::random_net(&mut random, size, Numbers::Mixed);
        let lent = LentNet::new(&numbers);
        for k in [0, 1] {
            let fine = refinement::refined_size(size, k).expect("a size");
            let out_len = refinement::refined_len(size, k).expect("a length");
            let expected = refinement::refined(&numbers, size, k);
            for scratch_len in [0, 1, RECORD, numbers.len(), out_len, 2 * out_len] {
                for junk in JUNK {
                    let room = Room {
                        out_len,
                        scratch_len,
                        junk,
                    };
                    let what = format!("{size:?}, {k} steps, scratch of {scratch_len}");
                    let refined = lent.refine(size, k, room).expect("accepted");
                    same(&refined, &expected, fine, &what);
                    let answer = lent.refined_point(size, k, (512, 512), room, 3);
                    same(&answer.expect("accepted").0, &expected, fine, &what);
                }
            }
        }
    }
}

/// From two steps on the scratch is free up to the size after one step fewer, and no further,
/// which the wrappers assert; `out` can be longer by any length.
#[test]
fn longer_outputs_are_changed_only_at_their_fronts() {
    let mut random = Random::new(120);
    for k in 2..=5 {
        for size in [(2, 2), (3, 2), (2, 4)] {
            let numbers = nets::random_net(&mut random, size, Numbers::Mixed);
            let lent = LentNet::new(&numbers);
            let fine = refinement::refined_size(size, k).expect("a size");
            let expected = refinement::refined(&numbers, size, k);
            let exact = Room::of_steps(size, k, 0);
            for (out_extra, scratch_extra) in [
                (0, 0),
                (1, 0),
                (0, 1),
                (RECORD, 100),
                // A scratch as long as the result, and both much longer than needed.
                (0, exact.out_len - exact.scratch_len),
                (exact.out_len, exact.out_len),
            ] {
                let out_len = exact.out_len + out_extra;
                let room = Room::new(out_len, exact.scratch_len + scratch_extra);
                let refined = lent.refine(size, k, room).expect("accepted");
                same(&refined, &expected, fine, &format!("{k} steps, {room:?}"));
            }
        }
    }
}
