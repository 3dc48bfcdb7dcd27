//! Mirror images: a net with some of its coordinates negated gives every result with these negated,
//! and is refused alike. With halves towards zero it would do so too: which way they go is for the
//! comparisons with the oracle.

use std::collections::{BTreeMap, BTreeSet, HashSet};
use std::mem;
use ups_tests::call::{bezier_asks, outlined_asks, Answer, Ask, Call, ASKS};
use ups_tests::faults::at_limits;
use ups_tests::kernel::{LentNet, Room};
use ups_tests::mirror::{mirrors, Mirror};
use ups_tests::multiresolution::{coarse_size, Split, DETAIL_LIMIT};
use ups_tests::nets::{self, Numbers, NUMBERS};
use ups_tests::oracle::{self, Net, Point, EDGE, LIMIT};
use ups_tests::random::Random;
use ups_tests::random_calls as calls;
use ups_tests::record::{self, DETAIL_RECORD, POINT_RECORD, RECORD};
use ups_tests::refinement::{exact_step, refined_size};
use ups_tests::shapes;

type Size = (usize, usize);

fn of_kernel(call: &Call) -> Answer {
    call.of_kernel(&LentNet::new(&call.net))
}

/// The answer to a call, whose images in all sets of coordinates get the images of it.
fn check(call: &Call) -> Answer {
    let answer = of_kernel(call);
    for mirror in mirrors() {
        let image = of_kernel(&mirror.call(call));
        // Nets are too long for a message.
        let same = image == mirror.answer(call.ask, &answer);
        assert!(same, "{mirror:?} of {call:?}");
    }
    answer
}

/// The surface point at a place; the viewer's point is made of it.
fn check_point(net: &[i32], size: Size, (p, q): Size) -> [i32; 3] {
    let answer = check(&Call::new(net, size, Ask::Surface { p, q }));
    let numbers = answer.numbers().expect("accepted");
    let point = [numbers[0], numbers[1], numbers[2]];
    let view = check(&Call::new(net, size, Ask::View { p, q }));
    let bits = oracle::view_bits(point).to_vec();
    assert_eq!(view, Answer::DoubleBits(bits), "{size:?} ({p}, {q})");
    point
}

/// Every second net has tiny numbers.
fn kind(round: usize) -> Numbers {
    match round % 2 {
        0 => Numbers::Tiny,
        _ => NUMBERS[round / 2 % 4],
    }
}

/// Places of all kinds, and as many again at quarters of an edge, where there are more halves.
fn places(random: &mut Random, size: Size) -> Vec<Size> {
    let quarters = nets::places_at(random, size, 4).into_iter();
    let quarters = quarters.map(|(p, q)| (256 * p, 256 * q));
    let all = nets::places(random, size).into_iter();
    all.chain(quarters).collect()
}

/// The exact value at a place.
fn exact(net: &[i32], (w, h): Size, (p, q): Size) -> Point {
    Net::new(net, w, h).exact(p as i128, q as i128, EDGE)
}

/// How many of the coordinates are halves below zero. Rounded upwards such a one, and its negative
/// too, would go up by a half, so that they would not be each other's images.
fn halves_below_zero(exact: Point) -> usize {
    let halves = exact.iter().filter(|x| x.denominator() == 2);
    halves.filter(|x| x.numerator() < 0).count()
}

/// Halves below zero by what they are divided by.
type Halves = BTreeMap<u32, usize>;

/// The divisor of a control point of a refined vertex; k counts from 0.
fn divisor((i, j): Size, k: usize) -> u32 {
    match (i % 2, j % 2) {
        (0, 0) => 6,
        // In the middle of an edge along e1, e2 and e3.
        (1, 0) if k == 0 => 2,
        (1, 1) if k == 1 => 2,
        (0, 1) if k == 2 => 2,
        _ => 4,
    }
}

/// Counts the halves below zero in one step of refining.
fn count_halves(net: &[i32], (w, h): Size, halves: &mut Halves) {
    let (wide, _) = refined_size((w, h), 1).expect("a size");
    for (n, triangle) in exact_step(&Net::new(net, w, h)).enumerate() {
        for (k, &exact) in triangle.iter().enumerate() {
            let divisor = divisor((n % wide, n / wide), k);
            *halves.entry(divisor).or_default() += halves_below_zero(exact);
        }
    }
}

/// Halves of these divisors were met.
fn expect_halves(halves: &Halves, divisors: &[u32]) {
    println!("halves below zero by their divisors: {halves:?}");
    let met = |divisor| halves.get(divisor).is_some_and(|&met| met >= 10);
    assert!(divisors.iter().all(met), "{halves:?}");
}

/// Whatever else a control point has is kept.
#[test]
fn images_by_hand() {
    let net: Vec<i32> = (1..=record::numbers((2, 2)) as i32).collect();
    let (yz, all) = (Mirror([false, true, true]), Mirror([true; 3]));
    let image = yz.net(&net);
    let controls = net.chunks(POINT_RECORD).zip(image.chunks(POINT_RECORD));
    for (control, image) in controls {
        assert_eq!(image[..3], [control[0], -control[1], -control[2]]);
        assert_eq!(image[3..], control[3..]);
    }
    assert_eq!(yz.details(&[0, 1, -2, 3]), [0, -1, 2, 3]);
    assert_eq!(all.point([5, 0, -7]), [-5, 0, 7]);
    let view = |doubles: [f64; 3]| Answer::DoubleBits(doubles.map(f64::to_bits).to_vec());
    let image = all.answer(Ask::View { p: 0, q: 0 }, &view([0.5, 0.0, -2.0]));
    assert_eq!(image, view([-0.5, 0.0, 2.0]));
    let sets: BTreeSet<[bool; 3]> = mirrors().iter().map(|mirror| mirror.0).collect();
    assert!(sets.len() == 7 && !sets.contains(&[false; 3]));
    for mirror in mirrors() {
        assert_eq!(mirror.net(&mirror.net(&net)), net);
    }
}

/// The door corner with z = 120 is a right door, and with -120 one turned over.
#[test]
fn the_door_corner_at_every_depth() {
    let (size, net) = ((2, 2), nets::door_corner(120));
    let turned = Mirror([false, false, true]).net(&net);
    assert_eq!(turned, nets::door_corner(-120));
    assert_eq!(check_point(&net, size, (256, 256)), [300, 300, 48]);
    for k in 0..=6 {
        let answer = check(&Call::new(&net, size, Ask::refine(size, k)));
        let refined = answer.numbers().expect("accepted");
        let fine = refined_size(size, k).expect("a size");
        for n in 0..17 * 17 {
            let (p, q) = (64 * (n % 17), 64 * (n / 17));
            check_point(&refined, fine, (p << k, q << k));
        }
    }
}

#[test]
fn points() {
    let mut random = Random::new(701);
    let (mut halves, mut zeros) = (0, 0);
    for round in 0..120 {
        let size = nets::random_size(&mut random);
        let net = nets::random_net(&mut random, size, kind(round));
        for place in places(&mut random, size) {
            let exact = exact(&net, size, place);
            let point = check_point(&net, size, place);
            assert_eq!(point, oracle::rounded(exact), "{size:?} {place:?}");
            halves += halves_below_zero(exact);
            zeros += point.iter().filter(|&&x| x == 0).count();
        }
    }
    println!("halves below zero: {halves}, zeros: {zeros}");
    assert!(halves >= 100 && zeros >= 100);
}

/// The net after k steps, and points of it: of the refined net, and some by the call that refines
/// and answers. Hands back how many of the exact points' coordinates are halves below zero.
fn check_refined(random: &mut Random, net: &[i32], size: Size, k: usize) -> (Vec<i32>, usize) {
    let answer = check(&Call::new(net, size, Ask::refine(size, k)));
    let refined = answer.numbers().expect("accepted");
    let fine = refined_size(size, k).expect("a size");
    let mut halves = 0;
    for (n, place) in places(random, fine).into_iter().step_by(2).enumerate() {
        halves += halves_below_zero(exact(&refined, fine, place));
        let point = check_point(&refined, fine, place);
        if n % 10 == 0 {
            let at_once = check(&Call::new(net, size, Ask::refined_point(size, k, place)));
            let due = Answer::Refined((refined.clone(), point));
            assert!(at_once == due, "{size:?}, {k} steps, {place:?}");
        }
    }
    (refined, halves)
}

/// At every depth that the sides take, and at each some exact values are halves below zero: of
/// control points in its step, and of points.
#[test]
fn refined_nets() {
    let mut random = Random::new(702);
    let (mut of_steps, mut of_points) = ([const { Halves::new() }; 6], [0; 7]);
    let sizes = [(2, 2), (3, 2), (2, 4), (5, 3), (9, 7), (2, 65), (257, 2)];
    for (size, most) in sizes.into_iter().zip([6, 6, 5, 4, 3, 4, 2]) {
        for k in 0..=most {
            let net = nets::random_net(&mut random, size, Numbers::Tiny);
            let (refined, halves) = check_refined(&mut random, &net, size, k);
            of_points[k] += halves;
            if k < most {
                let fine = refined_size(size, k).expect("a size");
                count_halves(&refined, fine, &mut of_steps[k]);
            }
            let net = nets::random_net(&mut random, size, NUMBERS[k % 4]);
            of_points[k] += check_refined(&mut random, &net, size, k).1;
        }
    }
    println!("halves below zero of points by depth: {of_points:?}");
    assert!(of_points.iter().all(|&halves| halves >= 5));
    for halves in &of_steps {
        expect_halves(halves, &[2, 4, 6]);
    }
}

#[test]
fn the_greatest_refined_net() {
    let size = (17, 17);
    let net = nets::random_net(&mut Random::new(703), size, Numbers::Tiny);
    let place = (512 * 1023, 512 * 513);
    let mirror = Mirror([true; 3]);
    let [answer, image] = [&net, &mirror.net(&net)].map(|net| {
        let room = Room::of_steps(size, 6, 0);
        let answer = LentNet::new(net).refined_point(size, 6, place, room, 3);
        Answer::Refined(answer.expect("accepted"))
    });
    let ask = Ask::refined_point(size, 6, place);
    assert!(image == mirror.answer(ask, &answer));
}

#[test]
fn bezier_nets() {
    let mut random = Random::new(704);
    for round in 0..20 {
        let size = nets::random_size(&mut random);
        let net = nets::random_net(&mut random, size, kind(round));
        for ask in bezier_asks(size) {
            assert_eq!(check(&Call::new(&net, size, ask)).refusal(), 0);
        }
    }
}

/// How often a call was accepted and how often refused by 11, by that number.
type Seen = BTreeMap<u32, usize>;

fn expect_both(seen: &Seen) {
    println!("accepted and refused by 11: {seen:?}");
    assert!(seen.keys().copied().eq([0, 11]), "{seen:?}");
    assert!(seen.values().all(|&seen| seen >= 10), "{seen:?}");
}

/// Nets of tiny numbers and of great ones; where they are split, the details are cleaned, and
/// merged before and after.
#[test]
fn splits() {
    let mut random = Random::new(705);
    let (mut halves, mut seen) = (Halves::new(), Seen::new());
    for round in 0..800 {
        let size = nets::random_odd_size(&mut random);
        let spread = random.pick(&[0, 3, 1_000_000]);
        let net = match kind(round) {
            Numbers::Tiny => nets::random_net(&mut random, size, Numbers::Tiny),
            great => nets::near_net(&mut random, size, great, spread),
        };
        let answer = check(&Call::new(&net, size, Ask::split(size)));
        *seen.entry(answer.refusal()).or_default() += 1;
        let Ok(Split { coarse, details }) = answer.split() else {
            continue;
        };
        let half = coarse_size(size);
        count_halves(&coarse, half, &mut halves);
        let merged = check(&Call::merge(&coarse, &details, half));
        assert!(merged == Answer::Numbers(net), "{size:?}");
        let t = random.pick(&details).unsigned_abs();
        let answer = check(&Call::new(&details, size, Ask::Clean { t }));
        let cleaned = answer.numbers().expect("accepted");
        check(&Call::merge(&coarse, &cleaned, half));
    }
    // A coarse vertex has twice the net's numbers, plus one number for each coordinate. So the sum
    // of two is even, and a sixth of a kept vertex is a third.
    expect_halves(&halves, &[4]);
    expect_both(&seen);
}

#[test]
fn merges() {
    let mut random = Random::new(706);
    let (mut halves, mut seen) = (Halves::new(), Seen::new());
    for round in 0..800 {
        let size = nets::random_size(&mut random);
        let coarse = nets::random_net(&mut random, size, kind(round));
        let most = random.pick(&[0, 3, 50, DETAIL_LIMIT]);
        let fine = refined_size(size, 1).expect("a size");
        let details = nets::random_details(&mut random, fine, most);
        let merged = check(&Call::merge(&coarse, &details, size));
        *seen.entry(merged.refusal()).or_default() += 1;
        count_halves(&coarse, size, &mut halves);
    }
    expect_halves(&halves, &[2, 4, 6]);
    expect_both(&seen);
}

/// A half next to an end of the range becomes the end, at both ends, so that a detail of one more
/// is refused.
#[test]
fn merges_at_the_ends_of_the_range() {
    let size = (2, 2);
    for sign in [1, -1] {
        let end = sign * LIMIT;
        let mut coarse = vec![end; record::numbers(size)];
        // After one step c1 of (1, 0) is half the sum of c2 and c3 of (1, 0).
        coarse[RECORD + POINT_RECORD] = end - sign;
        let mut call = Call::new(&coarse, size, Ask::Merge);
        let merged = check(&call).numbers().expect("accepted");
        assert_eq!(merged[RECORD], end);
        for (detail, refusal) in [(sign, 11), (-sign, 0)] {
            call.details[DETAIL_RECORD] = detail;
            assert_eq!(check(&call).refusal(), refusal, "{end}, {detail}");
        }
    }
}

/// Every triangle and places of a net with an outline, and places after k steps.
fn door_asks(random: &mut Random, size: Size, k: usize) -> Vec<Ask> {
    let mut asks: Vec<Ask> = bezier_asks(size).collect();
    for (p, q) in places(random, size).into_iter().step_by(4) {
        asks.extend([Ask::Surface { p, q }, Ask::View { p, q }]);
    }
    asks.push(Ask::refine(size, k));
    let fine = refined_size(size, k).expect("a size");
    let places = places(random, fine).into_iter().step_by(16);
    asks.extend(places.map(|place| Ask::refined_point(size, k, place)));
    asks
}

#[test]
fn doors() {
    let mut random = Random::new(707);
    let (mut halves, mut seen) = (0, HashSet::new());
    for round in 0..56 {
        let k = round % 7;
        let most = if k < 5 { 4 } else { 2 };
        let size = (2 + random.below(most), 2 + random.below(most));
        let net = nets::random_net(&mut random, size, kind(round));
        let bytes = match round % 4 {
            0 => shapes::random(&mut random, size, 70),
            _ => shapes::grown(&mut random, size, 1 + round),
        };
        for ask in door_asks(&mut random, size, k) {
            let call = Call::new(&net, size, ask).with_outline(&bytes);
            let refusal = check(&call).refusal();
            seen.insert((mem::discriminant(&ask), refusal));
            if let (Ask::Surface { p, q }, 0) = (ask, refusal) {
                halves += halves_below_zero(exact(&net, size, (p, q)));
            }
        }
    }
    // Each of the five calls accepted, each but refining refused by 15, and both that refine by 14.
    assert_eq!(seen.len(), 5 + 4 + 2);
    println!("halves below zero on the door: {halves}");
    assert!(halves >= 10);
}

/// The refusals with each of these numbers at the ends of its range and beyond.
fn at_ends(call: &Call, numbers: fn(&mut Call) -> &mut Vec<i32>, limit: i32) -> BTreeSet<u32> {
    let mut seen = BTreeSet::new();
    for position in 0..numbers(&mut call.clone()).len() {
        for (value, _) in at_limits(limit, 3) {
            let mut call = call.clone();
            numbers(&mut call)[position] = value;
            seen.insert(check(&call).refusal());
        }
    }
    seen
}

#[test]
fn numbers_beyond_their_range() {
    let mut random = Random::new(708);
    let size = (3, 3);
    let net = nets::random_net(&mut random, size, Numbers::Tiny);
    let refining = [Ask::refine(size, 1), Ask::refine(size, 2)];
    for ask in ASKS.into_iter().chain(refining) {
        let tested = !matches!(ask, Ask::Vertex { .. });
        let seen = at_ends(&Call::new(&net, size, ask), |call| &mut call.net, LIMIT);
        assert_eq!(seen.contains(&3), tested, "{ask:?}: {seen:?}");
    }
    for ask in outlined_asks(size, 1) {
        let call = Call::new(&net, size, ask).with_outline(&shapes::full(size));
        let seen = at_ends(&call, |call| &mut call.net, LIMIT);
        assert_eq!(seen, [0, 3].into(), "{ask:?}");
    }
    let split = Call::new(&net, size, Ask::split(size));
    let seen = at_ends(&split, |call| &mut call.net, LIMIT);
    assert_eq!(seen, [0, 3, 11].into());
    let clean = Call::new(&net, size, Ask::Clean { t: 2 });
    let seen = at_ends(&clean, |call| &mut call.net, DETAIL_LIMIT);
    assert_eq!(seen, [0, 3].into());
    // The greatest detail leads from one end of the range to the other.
    let merge = Call::new(&vec![LIMIT; net.len()], size, Ask::Merge);
    let seen = at_ends(&merge, |call| &mut call.net, LIMIT);
    assert_eq!(seen, [0, 3].into());
    let seen = at_ends(&merge, |call| &mut call.details, DETAIL_LIMIT);
    assert_eq!(seen, [0, 3, 11].into());
}

/// Calls of every kind with up to three changes, which bring all refusals of calls on nets.
#[test]
fn random_faults() {
    let mut random = Random::new(709);
    let kinds = [
        calls::vertex,
        calls::bezier,
        calls::surface,
        calls::view,
        calls::write,
        calls::refine,
        calls::refined_point,
        calls::seam_points,
        calls::split,
        calls::merge,
        calls::clean,
        calls::from_points,
        calls::bezier_outlined,
        calls::surface_outlined,
        calls::view_outlined,
        calls::refine_outlined,
        calls::refined_point_outlined,
    ];
    let mut seen = BTreeSet::new();
    for make in kinds {
        for _ in 0..1200 {
            let mut call = make(&mut random);
            for _ in 0..random.below(4) {
                calls::change(&mut random, &mut call);
            }
            seen.insert(check(&call).refusal());
        }
    }
    assert!(seen.into_iter().eq((0..=6).chain(10..=16)));
}
