//! Several faults of split, merge and clean at once: the earliest number of the order is
//! answered.

use ups_tests::call::{Ask, Call};
use ups_tests::multiresolution::{self, DETAIL_LIMIT};
use ups_tests::nets::{self, Numbers};
use ups_tests::oracle::LIMIT;
use ups_tests::order::{self, Fault, Group};
use ups_tests::random::Random;
use ups_tests::record::{self, POINT_RECORD, RECORD};
use ups_tests::refinement;

const MAX: usize = usize::MAX;
const COARSE: (usize, usize) = (3, 2);

fn calls() -> [Call; 3] {
    Call::multiresolution(&mut Random::new(261), COARSE)
}

/// Gives a call this size. What split and clean are lent is made long enough for it, so that
/// number 1 can stand alone; for merge a side above 1,025 is number 4 as well.
fn set_size(call: &mut Call, size: (usize, usize)) {
    (call.w, call.h) = size;
    match &mut call.ask {
        Ask::Split { details_len } => {
            call.net.resize(record::numbers(size), 0);
            call.out_len = multiresolution::coarse_len(size).expect("a length");
            *details_len = record::details(size);
        }
        Ask::Clean { .. } => call.net.resize(record::details(size), 0),
        _ => {}
    }
}

fn size_faults() -> Vec<Fault> {
    let long: [Fault; 2] = [|c| set_size(c, (1027, c.h)), |c| set_size(c, (c.w, 1026))];
    [&order::SIDES[..], &long].concat()
}

/// An accepted side becomes at least this long; another one stays as it is.
fn long(side: &mut usize, least: usize) {
    if *side >= 2 {
        *side = least.max(*side);
    }
}

fn step_faults() -> Vec<Fault> {
    vec![|c| long(&mut c.w, 514), |c| long(&mut c.h, 1025)]
}

/// An accepted side becomes even; another one stays as it is.
fn even(side: &mut usize) {
    if (3..=1025).contains(side) {
        *side -= *side % 2;
    }
}

fn parity_faults() -> Vec<Fault> {
    vec![|c| even(&mut c.w), |c| even(&mut c.h), |c| {
        even(&mut c.w);
        even(&mut c.h);
    }]
}

fn set_threshold(call: &mut Call, threshold: u32) {
    if let Ask::Clean { t } = &mut call.ask {
        *t = threshold;
    }
}

fn threshold_faults() -> Vec<Fault> {
    vec![|c| set_threshold(c, 33_554_433), |c| {
        set_threshold(c, u32::MAX)
    }]
}

/// Results outside the net range, at the first vertex and at all of them.
fn result_faults(ask: Ask) -> Vec<Fault> {
    match ask {
        Ask::Merge => vec![
            |c| {
                c.net[..RECORD].fill(LIMIT);
                c.details[0] = 1;
            },
            |c| {
                c.net.fill(-LIMIT);
                c.details.fill(-1);
            },
        ],
        _ => vec![|c| c.net[POINT_RECORD] = LIMIT, |c| {
            c.net.chunks_mut(2).for_each(|pair| pair[0] = -LIMIT)
        }],
    }
}

fn number_faults(ask: Ask) -> Vec<Fault> {
    let mut faults: Vec<Fault> = vec![|c| c.net[0] = i32::MIN, |c| c.net.fill(i32::MAX)];
    if !matches!(ask, Ask::Clean { .. }) {
        faults.push(|c| c.net[0] = LIMIT + 1);
    }
    match ask {
        Ask::Clean { .. } => faults.push(|c| c.net[0] = -DETAIL_LIMIT - 1),
        Ask::Merge => faults.extend::<[Fault; 2]>([
            |c| c.details[1] = DETAIL_LIMIT + 1,
            |c| c.details[0] = i32::MIN,
        ]),
        _ => {}
    }
    faults
}

/// One number or detail missing for the size, where that can be lent, or all of them.
fn length_faults(ask: Ask) -> Vec<Fault> {
    let mut faults: Vec<Fault> = vec![
        |c| {
            let needed = match c.ask {
                Ask::Clean { .. } => multiresolution::details_len((c.w, c.h)),
                _ => refinement::refined_len((c.w, c.h), 0),
            };
            c.net.truncate(needed.unwrap_or(0).saturating_sub(1));
        },
        |c| c.net.clear(),
    ];
    if ask == Ask::Merge {
        faults.push(|c| {
            let needed = multiresolution::merged_details_len((c.w, c.h));
            c.details.truncate(needed.unwrap_or(0).saturating_sub(1));
        });
        faults.push(|c| c.details.clear());
    }
    faults
}

fn shorten_details(call: &mut Call, shorter: fn(usize) -> usize) {
    if let Ask::Split { details_len } = &mut call.ask {
        *details_len = shorter(*details_len);
    }
}

fn output_faults(ask: Ask) -> Vec<Fault> {
    let mut faults: Vec<Fault> = vec![|c| c.out_len = c.out_len.min(RECORD - 1), |c| c.out_len = 0];
    if matches!(ask, Ask::Split { .. }) {
        faults.push(|c| shorten_details(c, |needed| needed.min(RECORD - 1)));
        faults.push(|c| shorten_details(c, |_| 0));
    }
    faults
}

/// The faults of a call in the order in which they are put in: a later one may depend on what
/// an earlier one left.
fn faults(ask: Ask) -> Vec<Group> {
    let mut faults = vec![
        (1, size_faults()),
        (4, step_faults()),
        (10, parity_faults()),
        (12, threshold_faults()),
        (11, result_faults(ask)),
        (3, number_faults(ask)),
        (2, length_faults(ask)),
        (5, output_faults(ask)),
    ];
    let numbers: &[u32] = match ask {
        Ask::Split { .. } => &[1, 10, 2, 5, 3, 11],
        Ask::Merge => &[1, 4, 2, 5, 3, 11],
        _ => &[1, 10, 12, 2, 3],
    };
    faults.retain(|(number, _)| numbers.contains(number));
    faults
}

#[test]
fn each_fault_alone() {
    for call in calls() {
        order::check_alone(&call, &faults(call.ask));
    }
}

/// Where the sides of a merged net are too long, the coarse net lent here is too short, and
/// there is no sum outside the range; among the refusals is a call that has both.
#[test]
fn each_pair_of_faults() {
    for call in calls() {
        let apart = |one, other| (one, other) == (4, 11);
        order::check_pairs(&call, &faults(call.ask), apart);
    }
}

#[test]
fn each_set_of_faults() {
    for call in calls() {
        order::check_sets(&call, &faults(call.ask));
    }
}

/// Puts a fault into the numbers that are lent, or none.
fn spoil_numbers(random: &mut Random, numbers: &mut Vec<i32>, limit: i32) {
    let position = random.below(numbers.len());
    let ends = [LIMIT, -LIMIT, DETAIL_LIMIT, -DETAIL_LIMIT];
    let beyond = [limit + 1, -limit - 1, i32::MIN, i32::MAX];
    match random.below(16) {
        0 => numbers[position] = random.pick(&beyond),
        1 => numbers[position] = random.pick(&ends),
        2 => numbers.truncate(position),
        3 => numbers.push(random.pick(&beyond)),
        _ => {}
    }
}

fn spoil(random: &mut Random, call: &mut Call) {
    let limit = match call.ask {
        Ask::Clean { .. } => DETAIL_LIMIT,
        _ => LIMIT,
    };
    spoil_numbers(random, &mut call.net, limit);
    if call.ask == Ask::Merge {
        spoil_numbers(random, &mut call.details, DETAIL_LIMIT);
    }
    let sides = [0, 1, 2, 3, 4, 5, 513, 514, 1025, 1026, 1027, 1 << 32, MAX];
    match random.below(8) {
        0 => call.w = random.pick(&sides),
        1 => call.h = random.pick(&sides),
        2 => call.out_len = random.below(call.out_len + 2),
        _ => {}
    }
    match &mut call.ask {
        Ask::Split { details_len } if random.below(8) == 0 => {
            *details_len = random.below(*details_len + 2);
        }
        Ask::Clean { t } => {
            let greatest = DETAIL_LIMIT as u32;
            let thresholds = [0, 1, 25, 50, greatest - 1, greatest, greatest + 1, u32::MAX];
            *t = random.pick(&thresholds);
        }
        _ => {}
    }
}

/// Any combination of faults, at and around the limits.
#[test]
fn random_calls() {
    let mut random = Random::new(262);
    let mut seen = [0; 13];
    for round in 0..12_000 {
        let size = (2 + random.below(3), 2 + random.below(3));
        let mut calls = Call::multiresolution(&mut random, size);
        let call = &mut calls[round % 3];
        if random.below(8) == 0 {
            let number = |x: &mut i32| *x = nets::random_number(&mut random, Numbers::Mixed);
            call.net.iter_mut().for_each(number);
        }
        spoil(&mut random, call);
        seen[call.check().refusal() as usize] += 1;
    }
    println!("calls by refusal: {seen:?}");
    for number in [0, 1, 2, 3, 4, 5, 10, 11, 12] {
        assert!(seen[number] >= 100, "too few calls with {number}: {seen:?}");
    }
}
