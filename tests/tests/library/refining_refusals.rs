//! Each refusal of the calls that refine, one fault at a time. The wrappers assert that it
//! changes nothing.

use ups_tests::call::{Ask, Call};
use ups_tests::kernel::{LentNet, Room};
use ups_tests::nets::{self, Numbers};
use ups_tests::oracle::LIMIT;
use ups_tests::random::Random;
use ups_tests::record;
use ups_tests::refinement::{refined_len, scratch_len};

const MAX: usize = usize::MAX;
const SIZE: (usize, usize) = (4, 3);

fn net() -> Vec<i32> {
    nets::random_net(&mut Random::new(151), SIZE, Numbers::Mixed)
}

/// Both calls with k steps; the place is on every refined grid.
fn asks(size: (usize, usize), k: usize) -> [Ask; 2] {
    [
        Ask::refine(size, k),
        Ask::refined_point(size, k, (1024, 512)),
    ]
}

/// Lends the scratch of this length.
fn with_scratch(ask: Ask, len: usize) -> Ask {
    let mut ask = ask;
    match &mut ask {
        Ask::Refine { scratch_len, .. } | Ask::RefinedPoint { scratch_len, .. } => {
            *scratch_len = len;
        }
        _ => panic!("{ask:?} has no scratch"),
    }
    ask
}

/// Both calls in this room.
fn expect_in(net: &LentNet, size: (usize, usize), k: usize, room: Room, refusal: u32) {
    let refined = net.refine(size, k, room);
    assert_eq!(refined.err().unwrap_or(0), refusal, "{size:?}, {k} steps");
    let at_once = net.refined_point(size, k, (0, 0), room, 3);
    assert_eq!(at_once.err().unwrap_or(0), refusal, "{size:?}, {k} steps");
}

#[test]
fn four_more_than_six_steps() {
    // Room for the nets after seven and after eight steps, whose sides are below 1,025.
    let room = Room::new(record::numbers((257, 257)), record::numbers((129, 129)));
    let net = LentNet::new(&nets::door_corner(120));
    for k in 0..=6 {
        expect_in(&net, (2, 2), k, room, 0);
    }
    let wide = [
        1 << 8,
        1 << 16,
        1 << 32,
        (1 << 32) + 1,
        1 << 63,
        MAX - 1,
        MAX,
    ];
    for k in [7, 8, 9, 10, 31, 32, 33, 62, 63, 64, 65]
        .into_iter()
        .chain(wide)
    {
        expect_in(&net, (2, 2), k, room, 4);
        expect_in(&net, (2, 2), k, Room::new(0, 0), 4);
    }
}

/// For each number of steps the longest side that is taken and the next one, each with room for
/// the refined net.
#[test]
fn four_refined_side_above_1025() {
    for (k, longest) in [
        (0, 1025),
        (1, 513),
        (2, 257),
        (3, 129),
        (4, 65),
        (5, 33),
        (6, 17),
    ] {
        for (side, refusal) in [(longest, 0), (longest + 1, if k == 0 { 1 } else { 4 })] {
            let net = LentNet::new(&vec![-LIMIT; record::numbers((side, 2))]);
            for size in [(side, 2), (2, side)] {
                expect_in(&net, size, k, Room::of_steps(size, k, 0), refusal);
            }
        }
    }
}

#[test]
fn four_for_the_width_alone_and_for_the_height_alone() {
    let net = LentNet::new(&vec![0; record::numbers((18, 17))]);
    for size in [(18, 17), (17, 18)] {
        expect_in(&net, size, 6, Room::new(1000, 1000), 4);
    }
    // The refined net has far fewer numbers than one of 1,025 by 1,025.
    let net = LentNet::new(&vec![0; record::numbers((1025, 2))]);
    for size in [(1025, 2), (2, 1025), (514, 2), (2, 514)] {
        expect_in(&net, size, 1, Room::of_steps(size, 1, 0), 4);
    }
}

#[test]
fn two_each_shorter_net() {
    let net = net();
    for k in 0..=2 {
        for ask in asks(SIZE, k) {
            for len in 0..net.len() {
                Call::new(&net[..len], SIZE, ask).expect(2);
            }
            Call::new(&net, SIZE, ask).expect(0);
        }
    }
}

#[test]
fn five_each_shorter_output() {
    let net = net();
    for k in 0..=2 {
        let needed = refined_len(SIZE, k).expect("a length");
        for ask in asks(SIZE, k) {
            let mut call = Call::new(&net, SIZE, ask);
            for out_len in 0..needed {
                call.out_len = out_len;
                call.expect(5);
            }
            for out_len in [needed, needed + 1, 2 * needed] {
                call.out_len = out_len;
                call.expect(0);
            }
        }
    }
}

#[test]
fn five_each_shorter_scratch() {
    let net = net();
    for k in 2..=3 {
        let needed = scratch_len(SIZE, k).expect("a length");
        for ask in asks(SIZE, k) {
            for len in 0..needed {
                Call::new(&net, SIZE, with_scratch(ask, len)).expect(5);
            }
            for len in [needed, needed + 1, 4 * needed] {
                Call::new(&net, SIZE, with_scratch(ask, len)).expect(0);
            }
        }
    }
}

/// One number short of the room that k steps need, in `out` and in the scratch.
#[test]
fn five_one_short_for_every_number_of_steps() {
    let size = (3, 2);
    let net = LentNet::new(&vec![LIMIT; record::numbers(size)]);
    for k in 0..=6 {
        let exact = Room::of_steps(size, k, 0);
        expect_in(&net, size, k, exact, 0);
        let short = Room {
            out_len: exact.out_len - 1,
            ..exact
        };
        expect_in(&net, size, k, short, 5);
        if k >= 2 {
            let short = Room {
                scratch_len: exact.scratch_len - 1,
                ..exact
            };
            expect_in(&net, size, k, short, 5);
        }
    }
}

#[test]
fn five_not_for_a_missing_scratch_below_two_steps() {
    let net = net();
    for k in 0..=3 {
        for ask in asks(SIZE, k) {
            let refusal = if k < 2 { 0 } else { 5 };
            Call::new(&net, SIZE, with_scratch(ask, 0)).expect(refusal);
        }
    }
}

#[test]
fn five_point_shorter_than_three_numbers() {
    let net = net();
    for k in 0..=2 {
        for (len, refusal) in [(0, 5), (1, 5), (2, 5), (3, 0), (4, 0), (100, 0)] {
            let mut ask = Ask::refined_point(SIZE, k, (1024, 512));
            if let Ask::RefinedPoint { point_len, .. } = &mut ask {
                *point_len = len;
            }
            Call::new(&net, SIZE, ask).expect(refusal);
        }
    }
}

/// The limits are those of the refined grid.
#[test]
fn six_no_such_refined_place() {
    let net = net();
    let (w, h) = SIZE;
    for k in 0..=3 {
        let (last_p, last_q) = ((w - 1) << (10 + k), (h - 1) << (10 + k));
        let expect = |p, q, refusal| {
            Call::new(&net, SIZE, Ask::refined_point(SIZE, k, (p, q))).expect(refusal);
        };
        for p in [0, 1024, last_p - 1, last_p] {
            for q in [0, 1024, last_q - 1, last_q] {
                expect(p, q, 0);
            }
        }
        for far in [1, 1024, 1 << 32, 1 << 54, 1 << 63, MAX - last_p] {
            expect(last_p + far, 0, 6);
            expect(last_p + far, last_q, 6);
            expect(last_p + far, last_q + 1, 6);
        }
        for far in [1, 1024, 1 << 32, 1 << 54, 1 << 63, MAX - last_q] {
            expect(0, last_q + far, 6);
            expect(last_p, last_q + far, 6);
            expect(last_p + 1, last_q + far, 6);
        }
    }
}
