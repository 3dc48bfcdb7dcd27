//! Checking an outline: the library finds connected triangles as the oracle's flood does.

use ups_tests::call::Call;
use ups_tests::kernel::{Junk, LentOutline, Number};
use ups_tests::outlines::{self, Door};
use ups_tests::random::Random;
use ups_tests::shapes;

type Size = (usize, usize);

/// What lies in the search before: numbers of any size, such as a search leaves, and none.
const JUNK: [Junk<u32>; 5] = [
    u32::canary,
    |_| 0,
    |_| u32::MAX,
    |position| position.saturating_sub(128) as u32,
    |position| (position % 3) as u32,
];

fn count(size: Size) -> usize {
    outlines::triangles(size).expect("a count")
}

/// Checks with a search of exactly so many numbers as are needed, and with a longer one.
fn check(bytes: &[u8], size: Size) -> bool {
    let connected = Door::new(bytes, size).connected();
    let lent = LentOutline::new(bytes);
    for (n, junk) in JUNK.into_iter().enumerate() {
        let refusal = lent.check_outline(size, count(size) + n, junk);
        let due = if connected { 0 } else { 14 };
        assert_eq!(refusal, due, "{size:?}: {bytes:?}");
    }
    connected
}

/// So many of all outlines of a net are connected: in a strip of n triangles n(n + 1)/2; in 3 by 3
/// the triangles are a ring of six, of which two opposite ones have one more each, and 31 choices
/// of neighbours in the ring become 70 with these two, each of which is connected alone as well.
#[test]
fn all_outlines_of_small_nets() {
    for (size, due) in [
        ((2, 2), 3),
        ((3, 2), 10),
        ((2, 3), 10),
        ((3, 3), 72),
        ((4, 2), 21),
        ((2, 4), 21),
    ] {
        let numbers = 0..1 << count(size);
        let connected = numbers.filter(|&number| check(&shapes::numbered(size, number), size));
        assert_eq!(connected.count(), due, "{size:?}");
    }
}

#[test]
fn all_outlines_of_4_by_3_and_3_by_4() {
    for size in [(4, 3), (3, 4)] {
        for number in 0..1 << count(size) {
            let bytes = shapes::numbered(size, number);
            let refusal = Call::check_of(&bytes, size).check().refusal();
            let connected = Door::new(&bytes, size).connected();
            assert_eq!(refusal, if connected { 0 } else { 14 }, "{bytes:?}");
        }
    }
}

/// Each single triangle is connected; of two, those that share an edge. Two that meet at a vertex
/// alone, and the last of a row with the first of the next, are not.
#[test]
fn single_triangles_and_pairs() {
    for size in [(5, 4), (4, 5), (9, 2), (2, 9)] {
        let all: Vec<_> = outlines::all(size).collect();
        for one in &all {
            assert!(check(&shapes::of(size, |t| t == one), size));
            for other in &all {
                let bytes = shapes::of(size, |t| t == one || t == other);
                let near = one == other || outlines::neighbours(one).contains(other);
                assert_eq!(check(&bytes, size), near, "{one:?} {other:?}");
            }
        }
    }
}

/// The parts around a vertex: of the six triangles there, all but two that are opposite are two
/// parts that touch at the vertex.
#[test]
fn parts_that_touch_at_a_vertex() {
    let size = (4, 4);
    let whole = shapes::hexagon(size, (1, 2));
    let around: Vec<usize> = (0..whole.len()).filter(|&n| whole[n] == 1).collect();
    assert_eq!(around.len(), 6);
    let mut seen = [0; 2];
    for set in 0..1 << around.len() {
        let mut bytes = whole.clone();
        for (n, &at) in around.iter().enumerate() {
            bytes[at] = (set >> n & 1) as u8;
        }
        seen[usize::from(check(&bytes, size))] += 1;
    }
    // Of a ring of six: none, and the 31 connected choices of neighbours in a circle.
    assert_eq!(seen, [33, 31]);
}

#[test]
fn shapes_and_shapes_with_one_byte_changed() {
    let mut random = Random::new(411);
    for size in [(4, 4), (5, 7), (8, 6), (17, 17), (33, 9), (9, 33)] {
        for (name, bytes) in shapes::shapes(size) {
            let connected = check(&bytes, size);
            assert_eq!(connected, name != "ups", "{name} of {size:?}");
            assert_eq!(check(&shapes::turned(&bytes), size), connected, "{name}");
            for _ in 0..60 {
                let mut changed = bytes.clone();
                let at = random.below(changed.len());
                changed[at] ^= 1;
                check(&changed, size);
            }
        }
    }
}

#[test]
fn random_outlines() {
    let mut random = Random::new(412);
    let mut seen = [0; 2];
    for round in 0..6000 {
        let size = (2 + random.below(9), 2 + random.below(9));
        let bytes = match round % 3 {
            0 => shapes::random(&mut random, size, 90),
            1 => {
                let chances = 50 + random.below(51);
                shapes::random(&mut random, size, chances)
            }
            _ => {
                let most = 1 + random.below(60);
                shapes::grown(&mut random, size, most)
            }
        };
        seen[usize::from(check(&bytes, size))] += 1;
    }
    println!("not connected, connected: {seen:?}");
    assert!(seen.iter().all(|&seen| seen > 1000));
}

/// Bytes past the last triangle do not count.
#[test]
fn bytes_past_the_last_triangle() {
    for size in [(2, 2), (3, 2), (3, 3)] {
        for number in 0..1 << count(size) {
            let exact = shapes::numbered(size, number);
            let refusal = Call::check_of(&exact, size).check().refusal();
            for more in [&[0][..], &[1; 40], &[2], &[0, 1, 255, 7]] {
                let longer = [&exact[..], more].concat();
                Call::check_of(&longer, size).expect(refusal);
            }
        }
    }
}

/// The greatest net, and long strips. A connected outline, and the same with a triangle less that
/// cuts it.
#[test]
fn the_greatest_outlines() {
    for size in [(1025, 1025), (1025, 2), (2, 1025)] {
        let lent = |bytes: &[u8]| {
            let lent = LentOutline::new(bytes);
            lent.check_outline(size, count(size), u32::canary)
        };
        let shapes = [
            ("full", shapes::full(size)),
            ("snake", shapes::snake(size)),
            ("comb", shapes::comb(size)),
            ("comb from above", shapes::comb_from_above(size)),
            ("spiral", shapes::spiral(size)),
            ("ring", shapes::ring(size)),
        ];
        for (name, bytes) in shapes {
            assert_eq!(lent(&bytes), 0, "{name} of {size:?}");
            // The first triangle that is present after the middle.
            let half = bytes.len() / 2;
            let at = half
                + bytes[half..]
                    .iter()
                    .position(|&byte| byte == 1)
                    .expect("one");
            let mut cut = bytes;
            cut[at] = 0;
            let connected = Door::new(&cut, size).connected();
            assert_eq!(lent(&cut) == 0, connected, "{name} of {size:?}, cut");
        }
        assert_eq!(lent(&shapes::ups(size)), 14);
        assert_eq!(lent(&vec![0; count(size)]), 14);
    }
}
