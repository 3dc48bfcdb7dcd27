//! Each refusal of the points of a seam, one fault at a time. The wrappers assert that it changes
//! nothing.

use ups_tests::call::{Ask, Call};
use ups_tests::kernel::{LentNet, Room};
use ups_tests::nets::{self, Numbers};
use ups_tests::oracle::LIMIT;
use ups_tests::random::Random;
use ups_tests::record;
use ups_tests::seam::{one_place, RefinedPlace, Seam, SEAM_NUMBERS};

const MAX: usize = usize::MAX;
const SIZE: Size = (4, 3);
/// The steps on both sides: none, one that needs no scratch, and some that do, also together.
const STEPS: [[usize; 2]; 7] = [[0, 0], [0, 1], [1, 0], [1, 1], [2, 0], [0, 2], [2, 3]];

type Size = (usize, usize);

fn net() -> Vec<i32> {
    nets::random_net(&mut Random::new(831), SIZE, Numbers::Mixed)
}

/// The call at a place inside.
fn base(steps: [usize; 2]) -> Call {
    let places = one_place(steps, (1000, 513));
    Call::new(&net(), SIZE, Ask::seam_points(SIZE, places))
}

fn seam(call: &mut Call) -> &mut Seam {
    match &mut call.ask {
        Ask::SeamPoints(seam) => seam,
        ask => panic!("{ask:?} has no seam"),
    }
}

/// The vertex (0, 0) with so many steps on each side, in this room on each side.
fn expect_in(net: &LentNet, size: Size, [k, l]: [usize; 2], room: Room, refusal: u32) {
    let places = [k, l].map(|k| RefinedPlace { k, place: (0, 0) });
    let answer = net.seam_points(size, places, [room; 2], SEAM_NUMBERS);
    let number = answer.err().unwrap_or(0);
    assert_eq!(number, refusal, "{size:?}, {k} and {l} steps");
}

#[test]
fn one_sides_outside_2_to_1025() {
    for steps in STEPS {
        for side in [0, 1, 1026, 1 << 32, 1 << 63, MAX] {
            for (w, h) in [(side, 3), (4, side), (side, side)] {
                let call = base(steps);
                Call { w, h, ..call }.expect(1);
            }
        }
    }
}

/// By k alone, by l alone and by both, with room for the nets after seven steps.
#[test]
fn four_more_than_six_steps() {
    let room = Room::new(record::numbers((129, 129)), record::numbers((65, 65)));
    let net = LentNet::new(&nets::door_corner(120));
    expect_in(&net, (2, 2), [6, 6], room, 0);
    let wide = [1 << 8, 1 << 32, (1 << 32) + 1, 1 << 63, MAX - 1, MAX];
    for many in [7, 8, 31, 32, 33, 63, 64, 65, 70].into_iter().chain(wide) {
        for few in [0, 1, 6] {
            expect_in(&net, (2, 2), [many, few], room, 4);
            expect_in(&net, (2, 2), [few, many], room, 4);
        }
        expect_in(&net, (2, 2), [many, many], room, 4);
        expect_in(&net, (2, 2), [0, many], Room::new(0, 0), 4);
    }
}

/// For each number of steps the longest side that is taken and the next one, on each side of the
/// seam alone, each with room for the refined net.
#[test]
fn four_refined_side_above_1025() {
    for (k, longest) in [(1, 513), (2, 257), (3, 129), (4, 65), (5, 33), (6, 17)] {
        for (side, refusal) in [(longest, 0), (longest + 1, 4)] {
            let net = LentNet::new(&vec![LIMIT; record::numbers((side, 2))]);
            for size in [(side, 2), (2, side)] {
                let room = Room::of_steps(size, k, 0);
                expect_in(&net, size, [k, 0], room, refusal);
                expect_in(&net, size, [k - 1, k], room, refusal);
            }
        }
    }
}

/// The four numbers of the places, each set to this one alone.
fn expect_number(steps: [usize; 2], place: Size, n: usize, number: usize, refusal: u32) {
    let mut call = base(steps);
    seam(&mut call).places = one_place(steps, place);
    let at = &mut seam(&mut call).places[n / 2].place;
    match n % 2 {
        0 => at.0 = number,
        _ => at.1 = number,
    }
    call.expect(refusal);
}

/// Beyond the grid of its own side, from the last places and from others.
#[test]
fn six_off_the_grid() {
    for steps in STEPS {
        let coarser = steps[0].min(steps[1]);
        let (end_p, end_q) = (3 << (10 + coarser), 2 << (10 + coarser));
        for place in [(0, 0), (end_p, end_q), (1000, 513)] {
            for n in 0..4 {
                let last = [3, 2][n % 2] << (10 + steps[n / 2]);
                for far in [1, 2, 64, 1024, 1 << 32, 1 << 54, 1 << 63, MAX - last] {
                    expect_number(steps, place, n, last + far, 6);
                }
            }
        }
        // Both beyond by as much, so that they are one place.
        for (p, q) in [(end_p + 1, 0), (0, end_q + 1), (1 << 40, 1 << 40)] {
            let places = one_place(steps, (p, q));
            Call::new(&net(), SIZE, Ask::seam_points(SIZE, places)).expect(6);
        }
    }
}

/// The last places of both grids are taken.
#[test]
fn six_not_at_the_border() {
    for steps in STEPS {
        let coarser = steps[0].min(steps[1]);
        let (end_p, end_q) = (3 << (10 + coarser), 2 << (10 + coarser));
        for p in [0, 1, end_p - 1, end_p] {
            for q in [0, 1, end_q - 1, end_q] {
                let places = one_place(steps, (p, q));
                Call::new(&net(), SIZE, Ask::seam_points(SIZE, places)).expect(0);
            }
        }
    }
}

/// On both grids, but not the same place: by one, by what rounding would hide, and by the same
/// numbers at other depths.
#[test]
fn six_another_place() {
    for steps @ [k, l] in STEPS {
        let places = one_place(steps, (1000, 513));
        for n in 0..4 {
            let (p, q) = places[n / 2].place;
            let number = [p, q][n % 2];
            for other in [number - 1, number + 1, number / 2, number + 100, 0] {
                expect_number(steps, (1000, 513), n, other, 6);
            }
        }
        let same = [k, l].map(|k| RefinedPlace {
            k,
            place: (1000, 513),
        });
        let refusal = if k == l { 0 } else { 6 };
        Call::new(&net(), SIZE, Ask::seam_points(SIZE, same)).expect(refusal);
        // p and q exchanged on one side.
        let mut call = base(steps);
        let (p, q) = places[1].place;
        seam(&mut call).places[1].place = (q, p);
        call.expect(6);
    }
}

/// Numbers whose product with 2^l or 2^k would wrap to that of the other side.
#[test]
fn six_a_product_that_would_wrap() {
    for (steps, p, p2) in [
        ([0, 1], 1 << 63, 0),
        ([0, 1], (1 << 63) + 5, 10),
        ([0, 6], 1 << 58, 0),
        ([0, 6], (1 << 58) + 7, 448),
        ([1, 6], (1 << 58) + 1, 32),
        ([2, 2], 1 << 62, 0),
        ([2, 2], (3 << 62) + 9, 9),
        ([1, 1], 1 << 63, 1 << 63),
    ] {
        let [k, l] = steps;
        for [one, two] in [[(p, 0), (p2, 0)], [(0, p), (0, p2)]] {
            let places = [(k, one), (l, two)].map(|(k, place)| RefinedPlace { k, place });
            let exchanged = [places[1], places[0]];
            let net = nets::door_corner(120);
            for places in [places, exchanged] {
                Call::new(&net, (2, 2), Ask::seam_points((2, 2), places)).expect(6);
            }
        }
    }
}

#[test]
fn two_each_shorter_net() {
    for steps in STEPS {
        let call = base(steps);
        call.expect(0);
        for len in 0..call.net.len() {
            let mut call = call.clone();
            call.net.truncate(len);
            call.expect(2);
        }
    }
}

/// The length of one of the five slices that are written.
fn length(call: &mut Call, slice: usize) -> &mut usize {
    match slice {
        0 => &mut call.out_len,
        1 => &mut call.out2_len,
        2 => &mut seam(call).scratch_lens[0],
        3 => &mut seam(call).scratch_lens[1],
        _ => &mut seam(call).points_len,
    }
}

/// Each of the five alone: all shorter ones, or where these are many some, and longer ones.
#[test]
fn five_each_slice_too_short() {
    for steps in STEPS {
        for slice in 0..5 {
            let mut call = base(steps);
            let needed = *length(&mut call, slice);
            let shorter = (0..needed).step_by(needed / 50 + 1);
            for len in shorter.chain(needed.checked_sub(1)) {
                *length(&mut call, slice) = len;
                call.expect(5);
            }
            for len in [needed, needed + 1, 2 * needed + 3] {
                *length(&mut call, slice) = len;
                call.expect(0);
            }
        }
    }
}

/// What the other side needs is not enough: room is counted with the steps of each side.
#[test]
fn five_for_the_room_of_the_other_side() {
    for steps in [[0, 1], [1, 0], [1, 2], [2, 1], [2, 3], [3, 2]] {
        let mut call = base(steps);
        (call.out_len, call.out2_len) = (call.out2_len, call.out_len);
        call.expect(5);
        let mut call = base(steps);
        seam(&mut call).scratch_lens.reverse();
        call.expect(if steps[0].max(steps[1]) < 2 { 0 } else { 5 });
    }
}

/// Every number of the net, also far from the place.
#[test]
fn three_each_number_beyond_its_range() {
    for steps in [[0, 0], [0, 2], [2, 1]] {
        let call = base(steps);
        for position in 0..call.net.len() {
            let mut call = call.clone();
            for value in [LIMIT + 1, -LIMIT - 1, i32::MIN, i32::MAX] {
                call.net[position] = value;
                call.expect(3);
            }
            for value in [LIMIT, -LIMIT] {
                call.net[position] = value;
                call.expect(0);
            }
        }
    }
}
