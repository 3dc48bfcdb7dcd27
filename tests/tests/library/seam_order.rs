//! Several faults at once in the points of a seam: the earliest number of the order is answered.

use std::collections::BTreeSet;
use ups_tests::call::{Ask, Call};
use ups_tests::faults::{
    net_faults, number_faults, output_faults, place_faults, second_output_faults,
    second_place_faults, second_step_faults, size_faults, step_faults,
};
use ups_tests::nets::{self, Numbers};
use ups_tests::oracle;
use ups_tests::order::{self, Group, ORDER};
use ups_tests::random::Random;
use ups_tests::random_calls as calls;
use ups_tests::seam::{one_place, Seam};

type Size = (usize, usize);

const SIZE: Size = (4, 3);
/// Six steps take sides of 17 vertices, so here the width alone or the height alone is too great
/// for them.
const WIDE: Size = (18, 2);
const HIGH: Size = (2, 18);
/// The numbers of the call in their order.
const NUMBERS: [u32; 6] = [1, 4, 6, 2, 5, 3];

/// Sizes and steps: without a scratch, with one on either side, and with two.
const BASES: [(Size, [usize; 2]); 7] = [
    (SIZE, [0, 0]),
    (SIZE, [0, 1]),
    (SIZE, [1, 0]),
    (SIZE, [1, 2]),
    (WIDE, [2, 1]),
    (HIGH, [0, 2]),
    (WIDE, [2, 2]),
];

fn base((size, steps): (Size, [usize; 2])) -> (Call, Seam) {
    let net = nets::random_net(&mut Random::new(841), size, Numbers::Mixed);
    let ask = Ask::seam_points(size, one_place(steps, (300, 200)));
    let Ask::SeamPoints(seam) = ask else {
        panic!("{ask:?} has no seam");
    };
    (Call::new(&net, size, ask), seam)
}

/// The faults in the order in which they are put in: a later one may depend on what an earlier one
/// left, and none takes an earlier one back.
fn faults((size, steps): (Size, [usize; 2])) -> Vec<Group> {
    let (call, seam) = base((size, steps));
    let both = |one, two| [one, two].concat();
    let places = both(place_faults(call.ask), second_place_faults());
    let room = both(output_faults(call.ask), second_output_faults(&seam));
    vec![
        (1, size_faults()),
        (4, both(step_faults(size), second_step_faults(size))),
        (6, places),
        (3, number_faults()),
        (2, net_faults()),
        (5, room),
    ]
}

/// The oracle has the order that is expected here.
#[test]
fn the_order() {
    for of in BASES {
        let (call, _) = base(of);
        let of_oracle = call.faults().into_iter().map(|(_, number)| number);
        assert!(of_oracle.eq(NUMBERS), "{call:?}");
    }
    let mut at = ORDER.iter();
    let in_order = |number: &u32| at.any(|other| other == number);
    assert!(NUMBERS.iter().all(in_order));
}

#[test]
fn each_fault_alone() {
    for of in BASES {
        order::check_alone(&base(of).0, &faults(of));
    }
}

#[test]
fn each_pair_of_faults() {
    for of in BASES {
        order::check_pairs(&base(of).0, &faults(of), |_, _| false);
    }
}

/// The first and the last fault of each number, in every set of numbers.
#[test]
fn each_set_of_faults() {
    for of in BASES {
        let few = |(number, faults): Group| {
            let first = faults[0];
            let last = faults[faults.len() - 1];
            (number, vec![first, last])
        };
        let groups: Vec<Group> = faults(of).into_iter().map(few).collect();
        order::check_sets(&base(of).0, &groups);
    }
}

/// Random calls with up to four changes.
#[test]
fn random_calls() {
    let mut random = Random::new(842);
    let mut seen = [0; 7];
    for _ in 0..3000 {
        let mut call = calls::seam_points(&mut random);
        for _ in 0..random.below(5) {
            calls::change(&mut random, &mut call);
        }
        call.check();
        seen[oracle::refusal(&call.faults()) as usize] += 1;
    }
    println!("calls by refusal: {seen:?}");
    let met: BTreeSet<u32> = (0..7).filter(|&n| seen[n as usize] >= 20).collect();
    assert!(met.into_iter().eq(0..7), "{seen:?}");
}
