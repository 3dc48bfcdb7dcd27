//! Split, clean and merge one after the other.

use ups_tests::call::{Ask, Call};
use ups_tests::kernel::{self, LentDetails, LentNet, Room};
use ups_tests::multiresolution::{self, coarse_size, kept, Split, DETAIL_LIMIT};
use ups_tests::nets::{self, Numbers};
use ups_tests::oracle::LIMIT;
use ups_tests::random::Random;
use ups_tests::rational::nearest;
use ups_tests::record::{self, POINT_RECORD, RECORD};

type Size = (usize, usize);

/// Nets that split takes: odd sides and any numbers whose coarse numbers are in range.
fn random_net(random: &mut Random, round: usize) -> (Vec<i32>, Size) {
    let kinds = [
        (Numbers::Small, 50),
        (Numbers::Small, LIMIT / 7 * 3 - 50),
        (Numbers::Large, 0),
        (Numbers::Extreme, 0),
        (Numbers::Mixed, 0),
    ];
    let (numbers, spread) = kinds[round % kinds.len()];
    let size = nets::random_odd_size(random);
    (nets::near_net(random, size, numbers, spread), size)
}

fn split(net: &[i32], size: Size) -> Split {
    let answer = Call::new(net, size, Ask::split(size)).check();
    answer.split().expect("accepted")
}

fn merge(coarse: &[i32], details: &[i32], size: Size) -> Vec<i32> {
    let answer = Call::merge(coarse, details, coarse_size(size)).check();
    answer.numbers().expect("accepted")
}

fn clean(details: &[i32], size: Size, t: u32) -> Vec<i32> {
    let answer = Call::new(details, size, Ask::Clean { t }).check();
    answer.numbers().expect("accepted")
}

/// The greatest move of a number.
fn move_between(net: &[i32], other: &[i32]) -> u32 {
    assert_eq!(net.len(), other.len());
    let moves = net.iter().zip(other).map(|(x, y)| x.abs_diff(*y));
    moves.max().expect("a number")
}

#[test]
fn merging_what_was_split_gives_the_net_back() {
    let mut random = Random::new(241);
    for round in 0..600 {
        let (net, size) = random_net(&mut random, round);
        let Split { coarse, details } = split(&net, size);
        assert_eq!(merge(&coarse, &details, size), net, "{size:?}");
    }
}

/// A threshold of zero or one moves nothing.
#[test]
fn cleaning_moves_no_number_by_the_threshold() {
    let mut random = Random::new(242);
    let mut moved = 0;
    for round in 0..300 {
        let (net, size) = random_net(&mut random, round);
        let Split { coarse, details } = split(&net, size);
        let own = random.pick(&details).unsigned_abs();
        let greatest = DETAIL_LIMIT as u32;
        for t in [0, 1, 2, 30, own, (own + 1).min(greatest), greatest] {
            let merged = merge(&coarse, &clean(&details, size, t), size);
            let far = move_between(&net, &merged);
            assert!(far < t.max(1), "{size:?} at {t}: {far}");
            moved += u32::from(far > 0);
        }
    }
    assert!(moved >= 500, "{moved} moved");
}

/// Split again and again down to the smallest net, then merged all the way back.
#[test]
fn several_levels() {
    let mut random = Random::new(243);
    for levels in 1..=5 {
        let side = (1 << levels) + 1;
        for start in [
            (side, side),
            (2 * side - 1, side),
            (side, 3 * (side - 1) + 1),
        ] {
            let first = nets::near_net(&mut random, start, Numbers::Small, 100);
            let (mut net, mut size) = (first.clone(), start);
            let mut stack = Vec::new();
            for _ in 0..levels {
                let Split { coarse, details } = split(&net, size);
                stack.push((details, size));
                (net, size) = (coarse, coarse_size(size));
            }
            assert!(size.0.min(size.1) == 2);
            while let Some((details, size)) = stack.pop() {
                net = merge(&net, &details, size);
            }
            assert!(net == first, "{start:?}");
        }
    }
}

/// The coarse net in whole numbers, since the rationals are slow for a great net.
fn coarse_net(net: &[i32], (w, _): Size) -> Vec<i32> {
    let mut coarse = Vec::new();
    for (n, vertex) in net.chunks_exact(RECORD).enumerate() {
        for (position, &x) in vertex.iter().enumerate().filter(|_| kept(n, w)) {
            let three = vertex.iter().skip(position % POINT_RECORD);
            let sum: i32 = three.step_by(POINT_RECORD).sum();
            // 5x less the others is 6x less all three.
            let thirds = 6 * i128::from(x) - i128::from(sum);
            coarse.push(nearest(thirds, 3) as i32);
        }
    }
    coarse
}

/// All calls on the greatest net; what cleaning takes away is known from the details.
#[test]
fn the_greatest_net() {
    let size = (1025, 1025);
    let half = coarse_size(size);
    assert_eq!(half, (513, 513));
    let net = nets::near_net(&mut Random::new(244), size, Numbers::Large, 5);
    let (count, coarse_len) = (record::numbers(size), record::numbers(half));
    let details_len = record::details(size);
    let answer = LentNet::new(&net).split(size, coarse_len, details_len);
    let Split { coarse, details } = answer.expect("accepted");
    assert!(coarse == coarse_net(&net, size));
    let lent = LentNet::new(&coarse);
    let refined = lent.refine(half, 1, Room::new(count, 0)).expect("accepted");
    assert!(details == multiresolution::difference(&net, &refined));
    let merged = lent.merge(&LentDetails::new(&details), half, count);
    assert!(merged.as_ref() == Ok(&net));
    let t = 1 << 23;
    let cleaned = kernel::clean(&details, size, t);
    assert!(cleaned == multiresolution::clean(&details, size, t));
    let cleaned = cleaned.expect("accepted");
    let merged = lent.merge(&LentDetails::new(&cleaned), half, count);
    let merged = merged.expect("accepted");
    assert!(move_between(&net, &merged) < t);
    let taken = multiresolution::difference(&net, &merged);
    let expected = details.iter().zip(&cleaned).map(|(x, left)| x - left);
    assert!(taken.into_iter().eq(expected));
}
