//! Nets split into a coarse net and details, number for number.

use ups_tests::call::{Ask, Call};
use ups_tests::multiresolution::{coarse_size, kept, Split, DETAIL_LIMIT};
use ups_tests::nets::{self, Numbers};
use ups_tests::oracle::LIMIT;
use ups_tests::random::Random;
use ups_tests::record::{self, DETAIL_RECORD, POINT_RECORD, RECORD};

type Size = (usize, usize);

/// Split compared with the oracle, its outputs longer than needed by `extra`. The details of
/// kept vertices are zero and the library takes the coarse net again.
fn check(net: &[i32], size: Size, extra: usize) -> Result<Split, u32> {
    let details_len = record::details(size) + extra;
    let mut call = Call::new(net, size, Ask::Split { details_len });
    call.out_len += extra;
    let split = call.check().split()?;
    for (n, detail) in split.details.chunks(DETAIL_RECORD).enumerate() {
        if kept(n, size.0) {
            assert_eq!(detail, [0; DETAIL_RECORD], "{call:?}: vertex {n}");
        }
    }
    let coarse = coarse_size(size);
    Call::new(&split.coarse, coarse, Ask::refine(coarse, 0)).expect(0);
    Ok(split)
}

/// A net whose kept vertices have all numbers `at`, the others `between`.
fn two_values(size: Size, at: i32, between: i32) -> Vec<i32> {
    let value = |n| if kept(n, size.0) { at } else { between };
    let vertices = 0..size.0 * size.1;
    vertices.flat_map(|n| [value(n); RECORD]).collect()
}

#[test]
fn random_nets() {
    let mut random = Random::new(211);
    // A coarse number is at most 7/3 of the greatest.
    let wide = LIMIT / 7 * 3 - 50;
    let kinds = [
        (Numbers::Small, 50),
        (Numbers::Small, wide),
        (Numbers::Large, 0),
        (Numbers::Large, 5),
        (Numbers::Large, 1_000_000),
        (Numbers::Extreme, 0),
        (Numbers::Extreme, 1),
        (Numbers::Mixed, 0),
    ];
    let mut seen = [0; 12];
    for round in 0..1200 {
        let (numbers, spread) = kinds[round % kinds.len()];
        let size = nets::random_odd_size(&mut random);
        let net = nets::near_net(&mut random, size, numbers, spread);
        let extra = random.pick(&[0, 1, RECORD - 1, RECORD, 100]);
        let refusal = check(&net, size, extra).err().unwrap_or(0);
        seen[refusal as usize] += 1;
    }
    assert!(seen[0] >= 600 && seen[11] >= 100, "{seen:?}");
}

#[test]
fn every_small_size() {
    let mut random = Random::new(212);
    for h in (3..16).step_by(2) {
        for w in (3..16).step_by(2) {
            for spread in [1, 100_000] {
                let net = nets::near_net(&mut random, (w, h), Numbers::Small, spread);
                check(&net, (w, h), 0).expect("accepted");
            }
        }
    }
}

/// Every control triangle of numbers from -6 to 6: all remainders of thirds, and in the
/// refinement those of sixths, quarters and halves, on both sides of zero. A net holds twelve,
/// in x, y and z of its four kept vertices.
#[test]
fn every_small_control_triangle() {
    let side = -6..=6;
    let pairs = side.clone().flat_map(|a| side.clone().map(move |b| [a, b]));
    let triples = pairs.flat_map(|[a, b]| side.clone().map(move |c| [a, b, c]));
    let triples: Vec<[i32; 3]> = triples.collect();
    assert_eq!(triples.len(), 13 * 13 * 13);
    for twelve in triples.chunks(12) {
        let mut net = two_values((3, 3), 0, 0);
        for (n, triple) in twelve.iter().enumerate() {
            let (vertex, coordinate) = ([0, 2, 6, 8][n / 3], n % 3);
            for (k, x) in triple.iter().enumerate() {
                net[RECORD * vertex + POINT_RECORD * k + coordinate] = *x;
            }
        }
        check(&net, (3, 3), 0).expect("accepted");
    }
}

/// Each number alone, so that every weight and its rounding is seen by itself.
#[test]
fn one_number_at_a_time() {
    let size = (3, 3);
    for position in 0..record::numbers(size) {
        for value in (-12..=12).chain([LIMIT, -LIMIT, LIMIT / 5 * 3, -LIMIT / 5 * 3]) {
            let mut net = two_values(size, 0, 0);
            net[position] = value;
            let refused = kept(position / RECORD, size.0) && value.abs() == LIMIT;
            let expected = if refused { Some(11) } else { None };
            assert_eq!(check(&net, size, 0).err(), expected, "{position}: {value}");
        }
    }
}

/// Numbers of three sevenths of the limit in size, and a little more or less: there the greatest
/// coarse number, 7/3 of them, leaves the range.
#[test]
fn around_three_sevenths_of_the_limit() {
    let mut random = Random::new(217);
    let mut seen = [0; 12];
    for round in 0..600 {
        let size = (3 + 2 * random.below(2), 3 + 2 * random.below(2));
        let around = LIMIT / 7 * 3 + random.pick(&[-1, 0, 1, 2, 3, 4]);
        let mut net: Vec<i32> = (0..record::numbers(size))
            .map(|_| around * random.pick(&[-1, 1]))
            .collect();
        // One number that is further in, or the first or last one further out.
        let last = net.len() - 1;
        let within = random.below(last);
        let at = random.pick(&[0, last, within]);
        net[at] += random.pick(&[-2, 0, 2]) * net[at].signum();
        let split = check(&net, size, round % 2);
        seen[split.err().unwrap_or(0) as usize] += 1;
    }
    assert!(seen[0] >= 100 && seen[11] >= 100, "{seen:?}");
}

/// A third beyond the range is rounded into it, two thirds are not.
#[test]
fn the_ends_of_the_coarse_range() {
    let size = (3, 3);
    for position in (0..record::numbers(size)).filter(|n| kept(n / RECORD, size.0)) {
        // The same coordinate of another control point of the vertex.
        let k = position % RECORD / POINT_RECORD;
        let other = position - POINT_RECORD * k + POINT_RECORD * ((k + 1) % 3);
        for (end, inwards) in [(LIMIT, -1), (-LIMIT, 1)] {
            for (steps, refusal) in [(0, None), (1, None), (2, Some(11)), (3, Some(11))] {
                let mut net = vec![end; record::numbers(size)];
                net[other] = end + steps * inwards;
                let split = check(&net, size, 0);
                assert_eq!(split.err(), refusal, "{position}: {end} {steps}");
            }
        }
    }
}

#[test]
fn the_greatest_details() {
    let size = (5, 3);
    for end in [LIMIT, -LIMIT] {
        let split = check(&two_values(size, -end, end), size, 0).expect("accepted");
        assert_eq!(split.coarse, vec![-end; record::numbers((3, 2))]);
        assert_eq!(2 * end.abs(), DETAIL_LIMIT);
        for (n, detail) in split.details.chunks(DETAIL_RECORD).enumerate() {
            let expected = if kept(n, size.0) { 0 } else { 2 * end };
            assert_eq!(detail, [expected; DETAIL_RECORD], "vertex {n}");
        }
    }
}

#[test]
fn a_constant_net_has_no_details() {
    let size = (5, 7);
    for value in [0, 1, -1, 7, LIMIT, -LIMIT] {
        let split = check(&vec![value; record::numbers(size)], size, 0).expect("accepted");
        assert_eq!(split.coarse, vec![value; record::numbers((3, 4))]);
        assert_eq!(split.details, vec![0; record::details(size)]);
    }
}

#[test]
fn long_narrow_nets() {
    let mut random = Random::new(213);
    for size in [(1025, 3), (3, 1025)] {
        let net = nets::near_net(&mut random, size, Numbers::Large, 3);
        check(&net, size, 1).expect("accepted");
    }
}
