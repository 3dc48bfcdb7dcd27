//! `ups::Door`, a net with an outline that checking accepts, and the functions on lent slices.

use ups::{Door, Net, Refusal};
use ups_tests::call::{Ask, Call};
use ups_tests::nets::{self, Numbers};
use ups_tests::outlines;
use ups_tests::random::Random;
use ups_tests::record;
use ups_tests::shapes;

const SIZE: (usize, usize) = (3, 3);

fn net() -> Net {
    let numbers = nets::random_net(&mut Random::new(481), SIZE, Numbers::Mixed);
    Net::new(SIZE.0, SIZE.1, &numbers).expect("an accepted net")
}

/// Every outline: a door is made of those that are connected, and of no other.
#[test]
fn doors_of_all_outlines() {
    for number in 0..1 << outlines::triangles(SIZE).expect("a count") {
        let bytes = shapes::numbered(SIZE, number);
        let door = Door::new(net(), &bytes);
        if !outlines::Door::new(&bytes, SIZE).connected() {
            assert_eq!(door, Err(Refusal::NOT_CONNECTED));
            continue;
        }
        let door = door.expect("an accepted door");
        assert_eq!((door.net(), door.outline()), (&net(), &bytes[..]));
    }
}

#[test]
fn doors_of_short_long_and_spoiled_outlines() {
    let full = shapes::full(SIZE);
    let new = |bytes: &[u8]| Door::new(net(), bytes);
    for len in 0..full.len() {
        assert_eq!(new(&full[..len]), Err(Refusal::SHORT));
    }
    let long = [&full[..], &[2, 0, 1]].concat();
    assert_eq!(new(&long), new(&full));
    for at in 0..full.len() {
        let mut spoiled = long.clone();
        spoiled[at] = 2;
        assert_eq!(new(&spoiled), Err(Refusal::OUTLINE_BYTE));
    }
}

/// Refining a door is a door, whose points are those of the refined point.
#[test]
fn refined_doors() {
    let mut random = Random::new(482);
    for k in 0..=4 {
        let bytes = shapes::grown(&mut random, SIZE, 4);
        let door = Door::new(net(), &bytes).expect("an accepted door");
        let refined = door.refine(k).expect("accepted");
        let of_parts = Door::new(refined.net().clone(), refined.outline());
        assert_eq!(of_parts.as_ref(), Ok(&refined));
        assert_eq!(Ok(refined.net()), net().refine(k).as_ref());
        for place in nets::places(&mut random, (refined.net().width(), refined.net().height())) {
            let point = refined.point(place.0, place.1);
            let at_once = door.refined_point(k, place.0, place.1);
            assert_eq!(at_once, point.map(|point| (refined.clone(), point)));
        }
    }
    let door = Door::new(net(), &shapes::full(SIZE)).expect("an accepted door");
    assert_eq!(door.refine(7), Err(Refusal::DEPTH));
}

/// Every call with an outline and these arguments, with empty outputs, on an empty net and on one
/// of 2 by 2.
#[test]
fn wild_arguments_to_functions_on_lent_slices() {
    let zeros = vec![0; record::numbers((2, 2))];
    for (w, h) in pairs() {
        for (a, b) in pairs() {
            let asks = [
                Ask::Check,
                Ask::Bezier {
                    i: a,
                    j: b,
                    down: 1,
                },
                Ask::Surface { p: a, q: b },
                Ask::View { p: a, q: b },
                Ask::refine((2, 2), a),
                Ask::refined_point((2, 2), a, (b, b)),
            ];
            for ask in asks {
                for (net, bytes) in [(&[][..], &[1, 1][..]), (&zeros, &[]), (&zeros, &[1, 1])] {
                    let mut call = Call::new(net, (2, 2), ask).with_outline(bytes);
                    (call.w, call.h, call.out_len) = (w, h, 0);
                    assert_eq!(call.of_lent(), call.of_oracle(), "{call:?}");
                }
            }
        }
    }
}

fn pairs() -> impl Iterator<Item = (usize, usize)> {
    let wild = [0, 1, 2, 3, 1025, 1026, 1 << 32, usize::MAX];
    wild.into_iter().flat_map(move |a| wild.map(|b| (a, b)))
}
