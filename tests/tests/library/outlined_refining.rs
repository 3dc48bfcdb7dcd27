//! Refining with an outline: the numbers are those of refining without one, and a fine triangle is
//! present where it lies in a present starting triangle.

use ups_tests::call::{Ask, Call};
use ups_tests::kernel::{DoorRoom, LentNet, LentOutline, Number, RefinedDoor, Room};
use ups_tests::nets::{self, Numbers};
use ups_tests::oracle::LIMIT;
use ups_tests::outlines::{self, Door};
use ups_tests::random::Random;
use ups_tests::record::RECORD;
use ups_tests::refinement::{self, refined_size};
use ups_tests::shapes;

type Size = (usize, usize);

const SIZES: [Size; 4] = [(2, 2), (3, 2), (2, 3), (3, 3)];

/// A net to refine, with the numbers after k steps, which the library has without an outline.
struct Net {
    lent: LentNet,
    size: Size,
    k: usize,
    refined: Vec<i32>,
}

impl Net {
    fn new(numbers: &[i32], size: Size, k: usize) -> Self {
        let lent = LentNet::new(numbers);
        let refined = lent.refine(size, k, Room::of_steps(size, k, 0));
        Net {
            lent,
            size,
            k,
            refined: refined.expect("accepted"),
        }
    }

    fn random(random: &mut Random, size: Size, k: usize) -> Self {
        let numbers = nets::random_net(random, size, Numbers::Mixed);
        Net::new(&numbers, size, k)
    }

    fn refine(&self, bytes: &[u8], extra: usize) -> Result<RefinedDoor, u32> {
        let room = DoorRoom::of_steps(self.size, self.k, extra);
        let outline = LentOutline::new(bytes);
        self.lent.refine_outlined(&outline, self.size, self.k, room)
    }

    /// Compares with this outline after the steps, or expects 14. Hands back whether it is taken.
    fn check(&self, bytes: &[u8], fine: impl Fn(&Door) -> Vec<u8>) -> bool {
        let door = Door::new(bytes, self.size);
        let due = match door.connected() {
            true => Ok(RefinedDoor {
                numbers: self.refined.clone(),
                outline: fine(&door),
                point: None,
            }),
            false => Err(14),
        };
        let (size, k) = (self.size, self.k);
        let answer = self.refine(bytes, bytes[0].into());
        // The nets are too long for a message.
        assert!(answer == due, "{size:?}, {k} steps, {bytes:?}");
        let Ok(refined) = answer else { return false };
        // Handed on, the fine outline is accepted.
        let size = refined_size(size, k).expect("a size");
        let count = refined.outline.len();
        let handed_on = LentOutline::new(&refined.outline);
        assert_eq!(handed_on.check_outline(size, count, u32::canary), 0);
        true
    }
}

#[test]
fn all_outlines_of_small_nets() {
    let mut random = Random::new(441);
    for size in SIZES {
        for k in 0..=3 {
            let net = Net::random(&mut random, size, k);
            assert_eq!(
                net.refined,
                refinement::refined(net.lent.numbers(), size, k)
            );
            for number in 0..1 << outlines::triangles(size).expect("a count") {
                net.check(&shapes::numbered(size, number), |door| door.refined(k));
            }
        }
    }
}

/// Each triangle alone, and all of them, with every number of steps.
#[test]
fn single_triangles_with_every_number_of_steps() {
    let mut random = Random::new(442);
    for size in [(2, 2), (3, 2), (2, 3)] {
        for k in 0..=6 {
            let net = Net::random(&mut random, size, k);
            for one in outlines::all(size) {
                let bytes = shapes::of(size, |t| *t == one);
                assert!(net.check(&bytes, |door| door.refined(k)));
            }
            assert!(net.check(&shapes::full(size), |door| door.refined(k)));
        }
    }
}

#[test]
fn shapes_with_every_number_of_steps() {
    let mut random = Random::new(443);
    for (size, most) in [((4, 4), 6), ((5, 7), 4), ((8, 6), 3), ((17, 17), 1)] {
        for k in 0..=most {
            let net = Net::random(&mut random, size, k);
            for (name, bytes) in shapes::shapes(size) {
                let taken = net.check(&bytes, |door| door.refined_by_cells(k));
                assert_eq!(taken, name != "ups");
            }
            let bytes = shapes::grown(&mut random, size, 12);
            assert!(net.check(&bytes, |door| door.refined_by_cells(k)));
        }
    }
}

/// Two refinements, the outline handed on, give the outline of one by all steps.
#[test]
fn steps_after_steps() {
    let mut random = Random::new(444);
    let size = (3, 4);
    for (first, second) in [(1, 1), (1, 2), (2, 1), (2, 2), (0, 3), (3, 0)] {
        let bytes = shapes::grown(&mut random, size, 7);
        let whole = Net::random(&mut random, size, first + second);
        let part = Net::new(whole.lent.numbers(), size, first);
        let after = part.refine(&bytes, 0).expect("accepted");
        let fine = refined_size(size, first).expect("a size");
        let rest = Net::new(&after.numbers, fine, second);
        assert!(rest.refine(&after.outline, 0) == whole.refine(&bytes, 0));
    }
}

#[test]
fn the_greatest_nets() {
    let mut random = Random::new(445);
    for (size, k) in [
        ((17, 17), 6),
        ((1025, 1025), 0),
        ((513, 513), 1),
        ((33, 2), 5),
    ] {
        let net = Net::random(&mut random, size, k);
        for bytes in [shapes::spiral(size), shapes::comb(size)] {
            assert!(net.check(&bytes, |door| door.refined_by_cells(k)));
        }
    }
}

/// With all bytes 1 the fine bytes are all 1.
#[test]
fn all_bytes_one() {
    let mut random = Random::new(446);
    for k in 0..=6 {
        let size = (2 + random.below(3), 2 + random.below(3));
        let net = Net::random(&mut random, size, k);
        let refined = net.refine(&shapes::full(size), 3).expect("accepted");
        assert_eq!(refined.numbers, net.refined);
        assert!(refined.outline.iter().all(|&byte| byte == 1));
    }
}

/// Bytes past the last triangle do not count; a byte above 1 before them is 13 for every k.
#[test]
fn bytes_past_the_last_triangle_and_bytes_above_one() {
    let mut random = Random::new(447);
    let size = (3, 4);
    for k in 0..=3 {
        let net = Net::random(&mut random, size, k);
        let bytes = shapes::grown(&mut random, size, 6);
        let due = net.refine(&bytes, 0);
        assert!(due.is_ok());
        for more in [&[0][..], &[1; 30], &[2], &[255, 0, 1]] {
            assert!(net.refine(&[&bytes[..], more].concat(), 0) == due);
        }
        for at in 0..bytes.len() {
            let mut bad = bytes.clone();
            bad[at] = random.pick(&[2, 3, 128, 255]);
            assert_eq!(net.refine(&bad, 0).err(), Some(13));
        }
    }
}

/// A number beyond the range at any vertex, whether a present triangle has it or not.
#[test]
fn every_vertex_is_tested_for_range() {
    let mut random = Random::new(448);
    let size = (4, 3);
    let net = nets::random_net(&mut random, size, Numbers::Mixed);
    for k in 0..=6 {
        for vertex in 0..size.0 * size.1 {
            let first = random.pick(&outlines::all(size).collect::<Vec<_>>());
            let bytes = shapes::of(size, |t| *t == first);
            let beyond = random.pick(&[LIMIT + 1, -LIMIT - 1, i32::MAX, i32::MIN]);
            let mut spoiled = net.clone();
            spoiled[RECORD * vertex + random.below(RECORD)] = beyond;
            let (i, j) = first.corners()[1];
            let place = ((1024 << k) * i as usize, (1024 << k) * j as usize);
            for ask in [Ask::refine(size, k), Ask::refined_point(size, k, place)] {
                Call::new(&spoiled, size, ask)
                    .with_outline(&bytes)
                    .expect(3);
            }
        }
    }
}
