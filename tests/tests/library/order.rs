//! Several faults at once: the earliest number of the order is answered.

use ups_tests::call::{Ask, Call, ASKS};
use ups_tests::faults::{
    beyond_grid, net_faults, number_faults, output_faults, place_faults, refines, size_faults,
    step_faults,
};
use ups_tests::nets::{self, Numbers};
use ups_tests::oracle::{self, LIMIT};
use ups_tests::order::{self, Group};
use ups_tests::random::Random;
use ups_tests::record::RECORD;
use ups_tests::refinement;

const MAX: usize = usize::MAX;
const SIZE: (usize, usize) = (4, 3);
/// Six steps take sides of 17 vertices, so here the width alone or the height alone is too
/// great for them.
const WIDE: (usize, usize) = (18, 2);
const HIGH: (usize, usize) = (2, 18);

type Size = (usize, usize);

fn base((size, ask): (Size, Ask)) -> Call {
    let net = nets::random_net(&mut Random::new(61), size, Numbers::Mixed);
    Call::new(&net, size, ask)
}

/// Each call on a net of any size; those that refine with one step and with two as well, where
/// they need a scratch. The points of a seam have more faults, and are in `seam_order`.
fn bases() -> Vec<(Size, Ask)> {
    let asks = ASKS.into_iter();
    let asks = asks.filter(|ask| !matches!(ask, Ask::SeamPoints(_)));
    let mut bases: Vec<(Size, Ask)> = asks.map(|ask| (SIZE, ask)).collect();
    for (size, k) in [(SIZE, 1), (WIDE, 2), (HIGH, 2)] {
        bases.push((size, Ask::refine(size, k)));
        bases.push((size, Ask::refined_point(size, k, (300, 200))));
    }
    bases
}

/// The faults of a call in the order in which they are put in: a later one may depend on what
/// an earlier one left.
fn faults((size, ask): (Size, Ask)) -> Vec<Group> {
    let mut faults = vec![
        (1, size_faults()),
        (4, step_faults(size)),
        (6, place_faults(ask)),
        (3, number_faults()),
        (2, net_faults()),
        (5, output_faults(ask)),
    ];
    let numbers: &[u32] = match ask {
        Ask::Vertex { .. } => &[1, 6, 2],
        Ask::Write { .. } => &[1, 2, 5, 3],
        Ask::Refine { .. } => &[1, 4, 2, 5, 3],
        Ask::RefinedPoint { .. } => &[1, 4, 6, 2, 5, 3],
        _ => &[1, 6, 2, 5, 3],
    };
    faults.retain(|(number, _)| numbers.contains(number));
    faults
}

#[test]
fn each_fault_alone() {
    for of in bases() {
        order::check_alone(&base(of), &faults(of));
    }
}

#[test]
fn each_pair_of_faults() {
    for of in bases() {
        // A triangle that does not exist has no control points, so 6 and 3 do not occur
        // together; the net is full of numbers beyond the range all the same. A net that is
        // refined is looked at as a whole.
        let apart = |one, other| (one, other) == (6, 3) && !refines(of.1);
        order::check_pairs(&base(of), &faults(of), apart);
    }
}

#[test]
fn each_set_of_faults() {
    for of in bases() {
        order::check_sets(&base(of), &faults(of));
    }
}

/// Arguments drawn from values at and around the limits, with any combination of faults.
#[test]
fn random_calls() {
    let mut random = Random::new(62);
    let sides = [0, 1, 2, 3, 4, 5, 1025, 1026, 1 << 32, MAX];
    let mut seen = [0; 7];
    for _ in 0..60_000 {
        let small = random.below(4) > 0;
        let mut side = || match small {
            true => 2 + random.below(4),
            false => random.pick(&sides),
        };
        let (w, h) = (side(), side());
        let lendable = w.checked_mul(h).filter(|&n| n <= 4 * 1026).unwrap_or(4);
        let mut net: Vec<i32> = (0..RECORD * lendable)
            .map(|_| nets::random_number(&mut random, Numbers::Mixed))
            .collect();
        if random.below(8) == 0 {
            net.truncate(net.len().saturating_sub(1 + random.below(RECORD)));
        }
        if random.below(4) == 0 && !net.is_empty() {
            let position = random.below(net.len());
            net[position] = random.pick(&[LIMIT + 1, -LIMIT - 1, i32::MIN, i32::MAX]);
        }
        let k = random.pick(&[0, 0, 1, 1, 1, 2, 2, 7, 1 << 32, MAX]);
        let mut index = |limit: usize| match random.below(8) {
            0 => limit,
            1 => limit.wrapping_add(1),
            2 => limit.wrapping_sub(1),
            3 => random.pick(&[0, 1, MAX, 1 << 32, 1 << 54]),
            _ => random.below(limit.clamp(1, 1 << 20)),
        };
        let (i, j) = (index(w.wrapping_sub(1)), index(h.wrapping_sub(1)));
        let last = |side: usize| side.wrapping_sub(1).wrapping_mul(1024);
        let (p, q) = (index(last(w)), index(last(h)));
        let refined_last = |side| beyond_grid(side, k).wrapping_sub(1);
        let (refined_p, refined_q) = (index(refined_last(w)), index(refined_last(h)));
        let down = random.pick(&[0, 0, 0, 1, 1, 1, 2, u32::MAX]);
        let written_len = random.pick(&[0, 1, 1, 1, 1, 2, 3]);
        let needed = refinement::scratch_len((w, h), k).map_or(0, |len| len.min(1 << 12));
        let scratch_len = random.pick(&[needed, needed, needed, needed + 1, needed / 2, 0]);
        let asks = [
            Ask::Vertex { i, j },
            Ask::Bezier { i, j, down },
            Ask::Surface { p, q },
            Ask::View { p, q },
            Ask::Write { written_len },
            Ask::Refine { k, scratch_len },
            Ask::RefinedPoint {
                k,
                p: refined_p,
                q: refined_q,
                scratch_len,
                point_len: random.pick(&[0, 2, 3, 3, 3, 3, 3, 3, 4]),
            },
        ];
        let mut call = Call::new(&net, (w, h), random.pick(&asks));
        if random.below(8) == 0 {
            call.out_len = random.below(call.out_len + 2);
        }
        call.check();
        let refusal = oracle::refusal(&call.faults());
        seen[refusal as usize] += 1;
    }
    println!("calls by refusal: {seen:?}");
    for number in 0..=6 {
        assert!(seen[number] >= 300, "too few calls with {number}: {seen:?}");
    }
}
