//! Details cleaned in place.

use ups_tests::call::{Ask, Call};
use ups_tests::multiresolution::DETAIL_LIMIT;
use ups_tests::nets;
use ups_tests::random::Random;
use ups_tests::record;

type Size = (usize, usize);

const SIZE: Size = (3, 3);
const COUNT: usize = record::details(SIZE);
const GREATEST: u32 = DETAIL_LIMIT as u32;

/// Clean compared with the oracle.
fn check(details: &[i32], size: Size, t: u32) -> Result<Vec<i32>, u32> {
    Call::new(details, size, Ask::Clean { t }).check().numbers()
}

#[test]
fn random_details() {
    let mut random = Random::new(231);
    for _ in 0..1000 {
        let size = nets::random_odd_size(&mut random);
        let most = random.pick(&[0, 1, 50, 1_000_000, DETAIL_LIMIT]);
        let details = nets::random_details(&mut random, size, most);
        let own = random.pick(&details).unsigned_abs();
        let any = random.below(GREATEST as usize + 1) as u32;
        for t in [0, 1, own.saturating_sub(1), own, own + 1, any, GREATEST] {
            let refusal = if t > GREATEST { Some(12) } else { None };
            let cleaned = check(&details, size, t);
            assert_eq!(cleaned.as_ref().err(), refusal.as_ref(), "{t}");
            // What is left is not cleaned again.
            if let Ok(cleaned) = cleaned {
                assert_eq!(check(&cleaned, size, t).as_ref(), Ok(&cleaned), "{t}");
            }
        }
    }
}

/// A detail of a size below t becomes 0, one of size t stays, on both sides of zero.
#[test]
fn thresholds_around_a_detail() {
    let limit = DETAIL_LIMIT;
    for size in (0..40).chain([1 << 20, 1 << 24, limit - 1, limit]) {
        for detail in [size, -size] {
            let own = detail.unsigned_abs();
            let next = (own + 1).min(GREATEST);
            for t in [0, 1, own.saturating_sub(1), own, next, GREATEST] {
                let left = if own < t { 0 } else { detail };
                let cleaned = check(&[detail; COUNT], SIZE, t);
                assert_eq!(cleaned, Ok(vec![left; COUNT]), "{detail} at {t}");
            }
        }
    }
}

#[test]
fn a_threshold_of_zero_or_one_changes_nothing() {
    let mut random = Random::new(232);
    for most in [1, 2, DETAIL_LIMIT] {
        let details = nets::random_details(&mut random, SIZE, most);
        for t in [0, 1] {
            assert_eq!(check(&details, SIZE, t).as_ref(), Ok(&details));
        }
    }
}

/// Only details of the greatest size are left.
#[test]
fn the_greatest_threshold() {
    let limit = DETAIL_LIMIT;
    let mut details = [limit - 1; COUNT];
    details[COUNT - 1] = limit;
    details[0] = -limit;
    details[1] = 1 - limit;
    let mut expected = [0; COUNT];
    expected[COUNT - 1] = limit;
    expected[0] = -limit;
    assert_eq!(check(&details, SIZE, GREATEST), Ok(expected.to_vec()));
    for t in [GREATEST + 1, 2 * GREATEST, 1 << 31, u32::MAX - 1, u32::MAX] {
        assert_eq!(check(&details, SIZE, t), Err(12), "{t}");
    }
}

/// Each detail alone among ones that are cleaned, and alone among ones that stay.
#[test]
fn each_detail_by_itself() {
    for position in 0..COUNT {
        for value in [7, -7] {
            let mut alone = [6; COUNT];
            alone[position] = value;
            let mut expected = [0; COUNT];
            expected[position] = value;
            assert_eq!(check(&alone, SIZE, 7), Ok(expected.to_vec()));
            let mut among = [7; COUNT];
            among[position] = -6;
            let mut expected = [7; COUNT];
            expected[position] = 0;
            assert_eq!(check(&among, SIZE, 7), Ok(expected.to_vec()));
        }
    }
}

#[test]
fn long_narrow_nets() {
    let mut random = Random::new(233);
    for size in [(1025, 3), (3, 1025)] {
        let details = nets::random_details(&mut random, size, 9);
        check(&details, size, 5).expect("accepted");
    }
}
