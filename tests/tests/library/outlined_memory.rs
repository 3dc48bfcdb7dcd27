//! What is lent to the calls with an outline, before and after: whatever the outputs, the scratch
//! and the search held, and however long they are, the answer is the same. The wrappers assert what
//! a call may not change: of a search all where the call is refused before 14, and what is past the
//! triangles always.

use ups_tests::call::{outlined_asks, Answer, Ask, Call};
use ups_tests::faults::{
    byte_faults, connection_faults, door_faults, net_faults, number_faults, output_faults,
    place_faults, search_faults, short_outline_faults, step_faults,
};
use ups_tests::kernel::{DoorRoom, Junk, LentNet, LentOutline, Number, RefinedDoor, Room};
use ups_tests::nets::{self, Numbers};
use ups_tests::order::Fault;
use ups_tests::outlines::{self, Lengths};
use ups_tests::pages::Side;
use ups_tests::random::Random;
use ups_tests::shapes;

const SIZE: (usize, usize) = (4, 3);

/// Of outputs and scratch, of the fine outline and of the search.
type AllJunk = (Junk<i32>, Junk<u8>, Junk<u32>);

/// What lies in the memory before: junk of each kind, and what could be a result.
const JUNK: [AllJunk; 4] = [
    (i32::canary, u8::canary, u32::canary),
    (|_| 0, |_| 0, |_| 0),
    (|_| i32::MIN, |_| 1, |_| u32::MAX),
    (
        |position| position as i32,
        |_| 255,
        |position| position.saturating_sub(128) as u32,
    ),
];

/// The room of a call that refines, longer by `extra` than it says.
fn room(
    call: &Call,
    extra: usize,
    (numbers, bytes, search): (Junk<i32>, Junk<u8>, Junk<u32>),
) -> DoorRoom {
    let (Ask::Refine { scratch_len, .. } | Ask::RefinedPoint { scratch_len, .. }) = call.ask else {
        panic!("{call:?} refines nothing");
    };
    let outline = call.outline.as_ref().expect("an outline");
    let room = DoorRoom::new(Lengths {
        out: call.out_len + extra,
        scratch: scratch_len + extra,
        fine: outline.fine_len + extra,
        search: outline.search_len + extra,
    });
    DoorRoom {
        plain: Room {
            junk: numbers,
            ..room.plain
        },
        fine_junk: bytes,
        search_junk: search,
        ..room
    }
}

fn refined(call: &Call, room: DoorRoom) -> Result<RefinedDoor, u32> {
    let net = LentNet::new(&call.net);
    let outline = call.outline.as_ref().expect("an outline").lent();
    let size = (call.w, call.h);
    match call.ask {
        Ask::RefinedPoint {
            k, p, q, point_len, ..
        } => net.refined_point_outlined(&outline, size, k, (p, q), room, point_len),
        Ask::Refine { k, .. } => net.refine_outlined(&outline, size, k, room),
        _ => panic!("{call:?} refines nothing"),
    }
}

/// The calls that refine, by 0 to 3 steps, accepted.
fn refining() -> Vec<Call> {
    let mut random = Random::new(471);
    let net = nets::random_net(&mut random, SIZE, Numbers::Mixed);
    let asks = (0..=3).flat_map(|k| outlined_asks(SIZE, k)[3..].to_vec());
    let call = |ask| Call::new(&net, SIZE, ask).with_outline(&shapes::full(SIZE));
    asks.map(call).collect()
}

fn door(answer: Answer) -> Result<RefinedDoor, u32> {
    match answer {
        Answer::Door(door) => Ok(door),
        other => Err(other.refusal()),
    }
}

/// Outlines that have the first triangle.
#[test]
fn junk_in_what_is_lent_and_longer_slices() {
    let alone = shapes::numbered(SIZE, 1);
    let outlines = [alone, shapes::staircase(SIZE), shapes::full(SIZE)];
    for call in refining() {
        for bytes in &outlines {
            let call = call.without_outline().with_outline(bytes);
            let due = door(call.check());
            assert!(due.is_ok());
            for junk in JUNK {
                for extra in [0, 1, 50] {
                    assert!(refined(&call, room(&call, extra, junk)) == due, "{call:?}");
                }
            }
        }
    }
}

/// Each refusal, with each fault that gives it, in memory with each junk.
#[test]
fn memory_after_each_refusal() {
    for start in refining() {
        let ask = start.ask;
        let mut faults: Vec<(u32, Fault)> = Vec::new();
        let mut add = |number, more: Vec<Fault>| {
            faults.extend(more.into_iter().map(|fault| (number, fault)));
        };
        add(1, vec![|c| c.w = 1, |c| c.h = 0, |c| c.w = 1026]);
        add(4, step_faults(SIZE));
        add(2, net_faults());
        add(2, short_outline_faults());
        add(13, byte_faults());
        add(5, output_faults(ask));
        add(5, search_faults(ask));
        add(14, connection_faults());
        add(3, number_faults());
        if matches!(ask, Ask::RefinedPoint { .. }) {
            add(6, place_faults(ask));
            add(15, door_faults());
        } else {
            add(14, door_faults()[1..].to_vec());
        }
        for (number, fault) in faults {
            let mut call = start.clone();
            fault(&mut call);
            for junk in JUNK {
                let answer = refined(&call, room(&call, 0, junk));
                assert_eq!(answer.err(), Some(number), "{call:?}");
            }
        }
    }
}

#[test]
fn memory_after_checking() {
    let count = outlines::triangles(SIZE).expect("a count");
    let full = shapes::full(SIZE);
    let apart = shapes::ups(SIZE);
    let bad = [&full[1..], &[2]].concat();
    for (_, _, junk) in JUNK {
        for (bytes, len, refusal) in [
            (&full[..], count, 0),
            (&full, count + 9, 0),
            (&apart, count, 14),
            (&apart, count + 9, 14),
            (&full, count - 1, 5),
            (&full, 0, 5),
            (&bad, count, 13),
            (&bad, 0, 13),
            (&full[1..], count, 2),
        ] {
            let lent = LentOutline::new(bytes);
            assert_eq!(lent.check_outline(SIZE, len, junk), refusal);
        }
        let lent = LentOutline::new(&full);
        assert_eq!(lent.check_outline((1, 3), count, junk), 1);
        assert_eq!(lent.check_outline((4, 1026), count, junk), 1);
    }
}

/// Net and outline of exact lengths in read-only pages, with an inaccessible page right behind them
/// or right in front of them.
#[test]
fn nothing_outside_net_and_outline_is_read_and_neither_is_written() {
    let mut random = Random::new(473);
    for _ in 0..30 {
        let size = nets::random_size(&mut random);
        let numbers = nets::random_net(&mut random, size, Numbers::Mixed);
        let most = 1 + random.below(30);
        let bytes = shapes::grown(&mut random, size, most);
        for side in [Side::Front, Side::End] {
            let net = LentNet::in_pages(&numbers, side);
            let outline = LentOutline::in_pages(&bytes, side);
            let mut calls = vec![Call::check_of(&bytes, size)];
            for k in 0..=2 {
                let asks = outlined_asks(size, k).into_iter();
                calls.extend(asks.map(|ask| Call::new(&numbers, size, ask).with_outline(&bytes)));
            }
            for (p, q) in nets::places(&mut random, size).into_iter().step_by(5) {
                let call = Call::new(&numbers, size, Ask::Surface { p, q });
                calls.push(call.with_outline(&bytes));
            }
            for call in calls {
                let outlined = call.outline.as_ref().expect("an outline");
                let answer = call.outlined_of_kernel(&net, outlined, &outline);
                assert_eq!(answer, call.of_oracle(), "{call:?}");
            }
        }
    }
}

#[test]
fn a_short_outline_is_not_read_beyond_its_end() {
    let numbers = nets::random_net(&mut Random::new(474), SIZE, Numbers::Mixed);
    let net = LentNet::in_pages(&numbers, Side::End);
    let full = shapes::full(SIZE);
    for len in 0..full.len() {
        let outline = LentOutline::in_pages(&full[..len], Side::End);
        let mut calls = vec![Call::check_of(&full[..len], SIZE)];
        for ask in outlined_asks(SIZE, 2) {
            calls.push(Call::new(&numbers, SIZE, ask).with_outline(&full[..len]));
        }
        for call in calls {
            let outlined = call.outline.as_ref().expect("an outline");
            let answer = call.outlined_of_kernel(&net, outlined, &outline);
            assert_eq!(answer, Answer::Refused(2), "{call:?}");
        }
    }
}
