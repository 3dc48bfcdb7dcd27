//! Coarse nets merged with details, number for number.

use ups_tests::call::{Ask, Call};
use ups_tests::multiresolution::{self, DETAIL_LIMIT};
use ups_tests::nets::{self, Numbers, NUMBERS};
use ups_tests::oracle::LIMIT;
use ups_tests::random::Random;
use ups_tests::record::{self, RECORD};
use ups_tests::refinement;

type Size = (usize, usize);

/// Merge compared with the oracle, its output longer than needed by `extra`. The library takes
/// the merged net again.
fn check(coarse: &[i32], details: &[i32], size: Size, extra: usize) -> Result<Vec<i32>, u32> {
    let mut call = Call::merge(coarse, details, size);
    call.out_len += extra;
    let merged = call.check().numbers()?;
    let fine = fine_size(size);
    Call::new(&merged, fine, Ask::refine(fine, 0)).expect(0);
    Ok(merged)
}

fn detail_count(size: Size) -> usize {
    multiresolution::merged_details_len(size).expect("a length")
}

fn fine_size(size: Size) -> Size {
    refinement::refined_size(size, 1).expect("a size")
}

/// What one refinement lacks of random numbers, so that these are the sums.
fn details_to(random: &mut Random, coarse: &[i32], size: Size, sums: Numbers) -> Vec<i32> {
    let sums = nets::random_net(random, fine_size(size), sums);
    multiresolution::difference(&sums, &refinement::refined(coarse, size, 1))
}

#[test]
fn random_nets() {
    let mut random = Random::new(221);
    for round in 0..800 {
        let (numbers, sums) = (NUMBERS[round % 4], NUMBERS[round / 4 % 4]);
        let size = nets::random_size(&mut random);
        let coarse = nets::random_net(&mut random, size, numbers);
        let details = details_to(&mut random, &coarse, size, sums);
        let extra = random.pick(&[0, 1, RECORD - 1, RECORD, 100]);
        check(&coarse, &details, size, extra).expect("accepted");
    }
}

/// Details of any size in their range: nearly all sums of great ones are outside the net range.
#[test]
fn random_details() {
    let mut random = Random::new(222);
    let mut seen = [0; 12];
    for round in 0..800 {
        let size = (2 + random.below(2), 2 + random.below(2));
        let coarse = nets::random_net(&mut random, size, NUMBERS[round % 4]);
        let most = random.pick(&[1, 50, LIMIT / 100, DETAIL_LIMIT]);
        let details = nets::random_details(&mut random, fine_size(size), most);
        let merged = check(&coarse, &details, size, 0);
        seen[merged.err().unwrap_or(0) as usize] += 1;
    }
    assert!(seen[0] >= 200 && seen[11] >= 200, "{seen:?}");
}

/// Coarse numbers and details of half of the limit in size, and a little more or less: there the
/// greatest sum leaves the range.
#[test]
fn around_half_of_the_limit() {
    let mut random = Random::new(226);
    let mut seen = [0; 12];
    for round in 0..600 {
        let size = (2 + random.below(2), 2 + random.below(2));
        let half = LIMIT / 2;
        let coarse = vec![half + random.pick(&[-1, 0, 1]); record::numbers(size)];
        let mut details: Vec<i32> = (0..detail_count(size))
            .map(|_| (half - random.below(3) as i32) * random.pick(&[-1, 1]))
            .collect();
        // The first, the last or another detail a little further out.
        let last = details.len() - 1;
        let within = random.below(last);
        let at = random.pick(&[0, last, within]);
        details[at] = half + random.pick(&[-1, 0, 1]);
        let merged = check(&coarse, &details, size, round % 2);
        seen[merged.err().unwrap_or(0) as usize] += 1;
    }
    assert!(seen[0] >= 100 && seen[11] >= 50, "{seen:?}");
}

#[test]
fn no_details_are_one_refinement() {
    let mut random = Random::new(223);
    for h in 2..9 {
        for w in 2..9 {
            let coarse = nets::random_net(&mut random, (w, h), Numbers::Mixed);
            let details = vec![0; detail_count((w, h))];
            let merged = check(&coarse, &details, (w, h), 0);
            let refined = Call::new(&coarse, (w, h), Ask::refine((w, h), 1)).check();
            assert_eq!(merged, refined.numbers());
        }
    }
}

/// Each number of a cell alone with details of one: halves, quarters and sixths are rounded
/// before the detail is added.
#[test]
fn one_number_at_a_time() {
    let size = (2, 2);
    for position in 0..record::numbers(size) {
        for value in -12..=12 {
            let mut coarse = vec![0; record::numbers(size)];
            coarse[position] = value;
            for detail in [-1, 1] {
                let details = vec![detail; detail_count(size)];
                check(&coarse, &details, size, 0).expect("accepted");
            }
        }
    }
}

/// Each number of the merged net at the ends of the range and one beyond.
#[test]
fn the_ends_of_the_net_range() {
    let size = (2, 2);
    for position in 0..detail_count(size) {
        for value in [0, 5, -7, LIMIT, -LIMIT] {
            let coarse = vec![value; record::numbers(size)];
            for (sum, refusal) in [
                (LIMIT, None),
                (LIMIT + 1, Some(11)),
                (-LIMIT, None),
                (-LIMIT - 1, Some(11)),
            ] {
                let mut details = vec![0; detail_count(size)];
                details[position] = sum - value;
                // The sum is one beyond, and so is the detail, where the coarse net is at the
                // other end.
                let beyond = details[position].abs() > DETAIL_LIMIT;
                let expected = if beyond { Some(3) } else { refusal };
                let merged = check(&coarse, &details, size, 0);
                assert_eq!(merged.err(), expected, "{position}: {value} to {sum}");
            }
        }
    }
}

/// The greatest details, at every place of the net and at one.
#[test]
fn the_greatest_details() {
    let size = (3, 2);
    let count = detail_count(size);
    for end in [LIMIT, -LIMIT] {
        let coarse = vec![-end; record::numbers(size)];
        let merged = check(&coarse, &vec![2 * end; count], size, 0);
        assert_eq!(merged, Ok(vec![end; record::numbers(fine_size(size))]));
        for position in 0..count {
            let mut details = vec![0; count];
            details[position] = 2 * end;
            let merged = check(&coarse, &details, size, 0).expect("accepted");
            assert_eq!(merged.iter().filter(|&&x| x == end).count(), 1);
        }
    }
}

/// The longest sides that merge takes.
#[test]
fn long_narrow_nets() {
    let mut random = Random::new(224);
    for size in [(513, 2), (2, 513)] {
        let coarse = nets::random_net(&mut random, size, Numbers::Mixed);
        let details = details_to(&mut random, &coarse, size, Numbers::Large);
        check(&coarse, &details, size, 1).expect("accepted");
    }
}
