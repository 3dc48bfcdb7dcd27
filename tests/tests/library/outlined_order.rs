//! Several faults at once in the calls with an outline: the earliest number of the order is
//! answered.

use ups_tests::call::{outlined_asks, Answer, Ask, Call};
use ups_tests::faults::{
    byte_faults, connection_faults, door_faults, net_faults, number_faults, output_faults,
    place_faults, refines, search_faults, short_outline_faults, size_faults, step_faults,
};
use ups_tests::kernel::LentNet;
use ups_tests::nets::{self, Numbers};
use ups_tests::oracle;
use ups_tests::order::{self, Group, ORDER};
use ups_tests::outlines;
use ups_tests::random::Random;
use ups_tests::random_calls as calls;
use ups_tests::shapes;

type Size = (usize, usize);

const SIZE: Size = (4, 3);
/// Six steps take sides of 17 vertices, so here the width alone or the height alone is too great
/// for them.
const WIDE: Size = (18, 2);
const HIGH: Size = (2, 18);
/// The most bytes of an outline that is lent whatever the size is.
const MOST: usize = 1 << 12;

fn base((size, ask): (Size, Ask)) -> Call {
    if ask == Ask::Check {
        return Call::check_of(&shapes::full(size), size);
    }
    let net = nets::random_net(&mut Random::new(431), size, Numbers::Mixed);
    Call::new(&net, size, ask).with_outline(&shapes::full(size))
}

/// Each call; those that refine without a step, with one, and with two, where they need a scratch.
fn bases() -> Vec<(Size, Ask)> {
    let mut bases = vec![(SIZE, Ask::Check), (WIDE, Ask::Check), (HIGH, Ask::Check)];
    bases.extend(outlined_asks(SIZE, 0).map(|ask| (SIZE, ask)));
    for (size, k) in [(SIZE, 1), (WIDE, 2), (HIGH, 2)] {
        bases.extend(outlined_asks(size, k)[3..].iter().map(|&ask| (size, ask)));
    }
    bases
}

/// The numbers of a call in their order.
fn numbers(ask: Ask) -> &'static [u32] {
    match ask {
        Ask::Check => &[1, 2, 13, 5, 14],
        Ask::Refine { .. } => &[1, 4, 2, 13, 5, 14, 3],
        Ask::RefinedPoint { .. } => &[1, 4, 6, 2, 13, 15, 5, 14, 3],
        _ => &[1, 6, 2, 13, 15, 5, 3],
    }
}

/// The faults of a call in the order in which they are put in: a later one may depend on what an
/// earlier one left, and none takes an earlier one back.
fn faults((size, ask): (Size, Ask)) -> Vec<Group> {
    let (mut short, mut room) = (short_outline_faults(), Vec::new());
    if ask != Ask::Check {
        short.extend(net_faults());
        room.extend(output_faults(ask));
    }
    if refines(ask) || ask == Ask::Check {
        room.extend(search_faults(ask));
    }
    let mut faults = vec![
        (1, size_faults()),
        (4, step_faults(size)),
        (6, place_faults(ask)),
        (3, number_faults()),
        (15, door_faults()),
        (14, connection_faults()),
        (13, byte_faults()),
        (2, short),
        (5, room),
    ];
    faults.retain(|(number, _)| numbers(ask).contains(number));
    assert_eq!(faults.len(), numbers(ask).len());
    faults
}

/// The oracle has the order that is expected here.
#[test]
fn the_orders() {
    for of in bases() {
        let of_oracle = base(of).faults().into_iter().map(|(_, number)| number);
        assert_eq!(of_oracle.collect::<Vec<_>>(), numbers(of.1), "{of:?}");
        let mut at = ORDER.iter();
        assert!(numbers(of.1)
            .iter()
            .all(|number| at.any(|other| other == number)));
    }
}

#[test]
fn each_fault_alone() {
    for of in bases() {
        order::check_alone(&base(of), &faults(of));
    }
}

#[test]
fn each_pair_of_faults() {
    for of in bases() {
        // A triangle that does not exist has no control points.
        let apart = |one, other| (one, other) == (6, 3) && !refines(of.1);
        order::check_pairs(&base(of), &faults(of), apart);
    }
}

/// The first and the last fault of each number, in every set of numbers.
#[test]
fn each_set_of_faults() {
    for of in bases() {
        let few = |(number, faults): Group| {
            let first = faults[0];
            let last = faults[faults.len() - 1];
            (number, vec![first, last])
        };
        let groups: Vec<Group> = faults(of).into_iter().map(few).collect();
        order::check_sets(&base(of), &groups);
    }
}

/// No triangle present is 14 where the outline is searched, and 15 where something is asked for.
#[test]
fn no_triangle_present() {
    for of in bases() {
        let call = base(of);
        let none = vec![0; call.outline.as_ref().expect("an outline").bytes.len()];
        let refusal = match of.1 {
            Ask::Check | Ask::Refine { .. } => 14,
            _ => 15,
        };
        call.with_outline(&none).expect(refusal);
    }
}

/// Points and Bézier nets do not ask whether the outline is connected.
#[test]
fn points_of_an_outline_that_is_not_connected() {
    for ask in &outlined_asks(SIZE, 0)[..3] {
        let mut call = base((SIZE, *ask));
        for fault in connection_faults() {
            fault(&mut call);
        }
        call.expect(0);
    }
}

/// With all bytes 1 the answers are those of the calls without an outline, accepted or not.
#[test]
fn all_bytes_one() {
    let mut random = Random::new(433);
    let kinds = [
        calls::bezier,
        calls::surface,
        calls::view,
        calls::refine,
        calls::refined_point,
    ];
    let mut seen = [0; 7];
    for round in 0..10_000 {
        let mut call = kinds[round % 5](&mut random);
        for _ in 0..random.below(4) {
            calls::change(&mut random, &mut call);
        }
        let plain = call.check();
        // Where there are more triangles, the net is too short for them anyway.
        let count = outlines::triangles((call.w, call.h)).unwrap_or(MOST);
        let net = LentNet::new(&call.net);
        let answer = match call.with_outline(&vec![1; count.min(MOST)]).of_kernel(&net) {
            Answer::Door(door) => {
                assert!(door.outline.iter().all(|&byte| byte == 1));
                match door.point {
                    Some(point) => Answer::Refined((door.numbers, point)),
                    None => Answer::Numbers(door.numbers),
                }
            }
            answer => answer,
        };
        assert_eq!(answer, plain);
        seen[plain.refusal() as usize] += 1;
    }
    println!("calls by refusal: {seen:?}");
    assert!(seen.iter().all(|&seen| seen >= 100));
}

/// Random calls with up to four changes.
#[test]
fn random_calls() {
    let mut random = Random::new(432);
    let kinds = [
        calls::check,
        calls::bezier_outlined,
        calls::surface_outlined,
        calls::view_outlined,
        calls::refine_outlined,
        calls::refined_point_outlined,
    ];
    for make in kinds {
        let mut seen = [0; 16];
        let mut ask = Ask::Check;
        for _ in 0..4000 {
            let mut call = make(&mut random);
            ask = call.ask;
            for _ in 0..random.below(5) {
                calls::change(&mut random, &mut call);
            }
            call.check();
            seen[oracle::refusal(&call.faults()) as usize] += 1;
        }
        println!("{ask:?}: {seen:?}");
        assert!(numbers(ask)
            .iter()
            .all(|&number| seen[number as usize] >= 20));
        assert!(seen[0] >= 500);
    }
}
