//! Points and Bézier nets with an outline: those on the door are as without one.

use std::collections::BTreeSet;
use ups_tests::call::{bezier_asks, outlined_asks, Answer, Ask, Call};
use ups_tests::kernel::LentNet;
use ups_tests::nets::{self, Numbers, NUMBERS};
use ups_tests::oracle::{chosen_triangle, Triangle, EDGE, LIMIT};
use ups_tests::outlines::{self, Door};
use ups_tests::random::Random;
use ups_tests::record::RECORD;
use ups_tests::shapes;

type Size = (usize, usize);

const SIZES: [Size; 4] = [(2, 2), (3, 2), (2, 3), (3, 3)];

/// The vertices, places on all edges and inside of each triangle, and places next to the edges.
fn places((w, h): Size) -> Vec<Size> {
    let steps = [0, 1, 300, 512, 723, 724, 1023];
    let along = |cells: usize| {
        let inner = (0..cells).flat_map(move |cell| steps.map(|step| 1024 * cell + step));
        inner.chain([1024 * cells]).collect::<Vec<_>>()
    };
    let (columns, rows) = (along(w - 1), along(h - 1));
    let pairs = columns
        .iter()
        .flat_map(|&p| rows.iter().map(move |&q| (p, q)));
    pairs.collect()
}

/// Both points at a place, each with its answer without an outline.
fn both(net: &[i32], size: Size, (p, q): Size) -> [(Ask, Answer); 2] {
    [Ask::Surface { p, q }, Ask::View { p, q }].map(|ask| (ask, Call::new(net, size, ask).check()))
}

/// Every outline of the small nets, and every place: 15 where no present triangle holds it, and
/// else the point of the call without an outline. A place is asked of one call or the other.
#[test]
fn all_outlines_of_small_nets() {
    let mut random = Random::new(421);
    for size in SIZES {
        let net = nets::random_net(&mut random, size, Numbers::Mixed);
        let lent = LentNet::new(&net);
        let asks = places(size).into_iter();
        let asks: Vec<_> = asks.map(|place| (place, both(&net, size, place))).collect();
        for number in 0..1 << outlines::triangles(size).expect("a count") {
            let bytes = shapes::numbered(size, number);
            let door = Door::new(&bytes, size);
            for (n, (place, both)) in asks.iter().enumerate() {
                let (ask, plain) = &both[(n + number) % 2];
                let call = Call::new(&net, size, *ask).with_outline(&bytes);
                let due = match door.holds(*place, EDGE) {
                    true => plain,
                    false => &Answer::Refused(15),
                };
                assert_eq!(&call.of_kernel(&lent), due, "{call:?}");
            }
        }
    }
}

/// A Bézier net is refused where its own triangle is missing, whatever is around it.
#[test]
fn bezier_nets_of_all_outlines() {
    let mut random = Random::new(422);
    for size in SIZES {
        let net = nets::random_net(&mut random, size, Numbers::Mixed);
        for number in 0..1 << outlines::triangles(size).expect("a count") {
            let bytes = shapes::numbered(size, number);
            for (ask, &byte) in bezier_asks(size).zip(&bytes) {
                let call = Call::new(&net, size, ask).with_outline(&bytes);
                call.expect(if byte == 1 { 0 } else { 15 });
            }
        }
    }
}

#[test]
fn random_outlines_and_places() {
    let mut random = Random::new(423);
    let mut seen = [0; 2];
    for round in 0..60 {
        let size = nets::random_size(&mut random);
        let net = nets::random_net(&mut random, size, NUMBERS[round % 4]);
        let chances = 10 + random.below(80);
        let bytes = shapes::random(&mut random, size, chances);
        for (p, q) in nets::places(&mut random, size) {
            for ask in [Ask::Surface { p, q }, Ask::View { p, q }] {
                let answer = Call::new(&net, size, ask).with_outline(&bytes).check();
                seen[usize::from(answer.refusal() == 0)] += 1;
            }
        }
    }
    println!("off the door, on it: {seen:?}");
    assert!(seen.iter().all(|&seen| seen > 1000));
}

/// The nets' vertices that are near a place: those of the triangles that hold it, and others.
fn near((w, h): Size, (p, q): Size) -> impl Iterator<Item = Size> {
    let (i, j) = (p / 1024, q / 1024);
    let columns = i.saturating_sub(1)..(i + 3).min(w);
    columns.flat_map(move |i| (j.saturating_sub(1)..(j + 3).min(h)).map(move |j| (i, j)))
}

/// Places on edges and vertices of the only present triangle. Where it is not the chosen one, the
/// numbers of the chosen one are tested all the same, and those of the present one are not.
#[test]
fn the_chosen_triangle_is_tested_for_range_also_where_it_is_missing() {
    let mut random = Random::new(424);
    let size = (4, 4);
    let net = nets::random_net(&mut random, size, Numbers::Mixed);
    let (mut missing, mut seen) = (0, BTreeSet::new());
    for present in outlines::all(size) {
        let bytes = shapes::of(size, |t| *t == present);
        for (p, q) in edge_places(&present) {
            let chosen = chosen_triangle(4, 4, p as i128, q as i128, EDGE);
            missing += usize::from(chosen != present);
            for (i, j) in near(size, (p, q)) {
                let vertex = (i as i128, j as i128);
                let beyond = random.pick(&[LIMIT + 1, -LIMIT - 1, i32::MAX, i32::MIN]);
                let mut spoiled = net.clone();
                spoiled[RECORD * (4 * j + i) + random.below(RECORD)] = beyond;
                let refusal = if chosen.corners().contains(&vertex) {
                    3
                } else {
                    0
                };
                for ask in [Ask::Surface { p, q }, Ask::View { p, q }] {
                    let call = Call::new(&spoiled, size, ask).with_outline(&bytes);
                    call.expect(refusal);
                }
                let of_present = present.corners().contains(&vertex);
                seen.insert((chosen == present, of_present, refusal));
            }
        }
    }
    assert!(missing > 100, "{missing}");
    // Beyond the range at a vertex of the present triangle alone, of the chosen one alone, of both
    // and of neither.
    let due = [(true, 0), (false, 3), (true, 3), (false, 0)];
    assert!(due
        .iter()
        .all(|&(of_present, refusal)| seen.contains(&(false, of_present, refusal))));
}

/// The corners of a triangle, and places on its edges.
fn edge_places(triangle: &Triangle) -> Vec<Size> {
    let corners = triangle.corners();
    let mut places = Vec::new();
    for n in 0..3 {
        let (a, b) = (corners[n], corners[(n + 1) % 3]);
        for t in [0, 1, 512, 700] {
            let between = |a: i128, b: i128| (1024 * a + t * (b - a)) as usize;
            places.push((between(a.0, b.0), between(a.1, b.1)));
        }
    }
    places
}

/// With all bytes 1 every answer is that of the call without an outline, refusals as well.
#[test]
fn all_bytes_one() {
    let mut random = Random::new(425);
    for round in 0..40 {
        let size = nets::random_size(&mut random);
        let mut net = nets::random_net(&mut random, size, NUMBERS[round % 4]);
        if round % 3 == 0 {
            let at = random.below(net.len());
            net[at] = LIMIT + 1;
        }
        let bytes = shapes::full(size);
        let mut asks = outlined_asks(size, 0)[..3].to_vec();
        for (p, q) in nets::places(&mut random, size) {
            asks.extend([Ask::Surface { p, q }, Ask::View { p, q }]);
        }
        asks.extend(bezier_asks(size));
        for ask in asks {
            let plain = Call::new(&net, size, ask);
            let answer = plain.clone().with_outline(&bytes).check();
            assert_eq!(answer, plain.check(), "{plain:?}");
        }
    }
}

/// Bytes past the last triangle change no answer, and a byte above 1 before them is always 13.
#[test]
fn bytes_past_the_last_triangle_and_bytes_above_one() {
    let mut random = Random::new(426);
    let size = (4, 3);
    let net = nets::random_net(&mut random, size, Numbers::Mixed);
    for _ in 0..20 {
        let exact = shapes::random(&mut random, size, 60);
        for ask in &outlined_asks(size, 0)[..3] {
            let plain = Call::new(&net, size, *ask);
            let due = plain.clone().with_outline(&exact).check();
            for more in [&[0][..], &[1; 30], &[2], &[255, 0, 1]] {
                let longer = [&exact[..], more].concat();
                assert_eq!(plain.clone().with_outline(&longer).check(), due);
            }
            for at in 0..exact.len() {
                for byte in [2, 3, 128, 255] {
                    let mut bad = exact.clone();
                    bad[at] = byte;
                    plain.clone().with_outline(&bad).expect(13);
                }
            }
        }
    }
}

/// In the greatest net and in long strips one triangle near the end is present, and the byte past
/// the last is 2: the corners of that triangle are on the door, and other places are not. With the
/// last byte 2 no place is looked at.
#[test]
fn the_greatest_nets() {
    let mut random = Random::new(427);
    for size @ (w, h) in [(1025, 1025), (1025, 2), (2, 1025)] {
        let net = nets::random_net(&mut random, size, Numbers::Mixed);
        let lent = LentNet::new(&net);
        let count = outlines::triangles(size).expect("a count");
        for present in [count - 1, count - 2, count - 3] {
            let mut bytes = vec![0; count];
            bytes[present] = 1;
            let corners = Door::new(&bytes, size).triangle(present).corners();
            let mut places = corners
                .map(|(i, j)| (1024 * i as usize, 1024 * j as usize))
                .to_vec();
            places.extend([(0, 0), (1024 * (w - 1), 1024 * (h - 2))]);
            bytes.push(2);
            for (p, q) in places {
                let call = Call::new(&net, size, Ask::Surface { p, q }).with_outline(&bytes);
                assert_eq!(call.of_kernel(&lent), call.of_oracle(), "{size:?} {p} {q}");
            }
            bytes[count - 1] = 2;
            let call = Call::new(&net, size, Ask::View { p: 0, q: 0 }).with_outline(&bytes);
            assert_eq!(call.of_kernel(&lent), Answer::Refused(13), "{size:?}");
        }
    }
}
