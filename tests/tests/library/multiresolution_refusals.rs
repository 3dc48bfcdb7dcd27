//! Each refusal of split, merge and clean, one fault at a time. The wrappers assert that it
//! changes nothing.

use ups_tests::call::{Ask, Call};
use ups_tests::faults::at_limits;
use ups_tests::multiresolution::{kept, merged_details_len, DETAIL_LIMIT};
use ups_tests::nets::{self, Numbers};
use ups_tests::oracle::LIMIT;
use ups_tests::random::Random;
use ups_tests::record::{self, POINT_RECORD, RECORD};

const MAX: usize = usize::MAX;
const COARSE: (usize, usize) = (3, 2);
const FINE: (usize, usize) = (5, 3);
/// Unsigned numbers whose lower bits alone, or whose product with nine, would be small.
const WIDE: [usize; 6] = [1 << 32, (1 << 32) + 3, 1 << 54, 1 << 60, 1 << 63, MAX - 1];

type Size = (usize, usize);

fn calls() -> [Call; 3] {
    Call::multiresolution(&mut Random::new(251), COARSE)
}

/// Each call on zeros of this size, where it can be lent.
fn zeros(size: Size) -> [Call; 3] {
    let vertices = size.0.checked_mul(size.1).filter(|&n| n <= 4 * 1027);
    let net = vec![0; RECORD * vertices.unwrap_or(4)];
    let asks = [Ask::split(size), Ask::Merge, Ask::Clean { t: 1 }];
    asks.map(|ask| Call::new(&net, size, ask))
}

/// Expects a refusal for split, merge and clean on zeros of this size.
fn expect_zeros(size: Size, refusals: [u32; 3]) {
    for (call, refusal) in zeros(size).iter().zip(refusals) {
        call.expect(refusal);
    }
}

#[test]
fn one_sides_outside_2_to_1025() {
    for side in [3, 5, 1023, 1025] {
        let merge = if side > 513 { 4 } else { 0 };
        expect_zeros((side, 3), [0, merge, 0]);
        expect_zeros((3, side), [0, merge, 0]);
    }
    let sides = [0, 1, 1026, 1027, 2049, MAX];
    for side in sides.into_iter().chain(WIDE) {
        for size in [
            (side, 3),
            (3, side),
            (side, 4),
            (4, side),
            (side, 0),
            (1, side),
            (side, side),
            (1025, side),
        ] {
            expect_zeros(size, [1; 3]);
        }
    }
}

/// Merge has no such number.
#[test]
fn ten_even_sides() {
    for side in [2, 4, 6, 512] {
        for size in [(side, 3), (3, side), (side, 2), (4, side)] {
            expect_zeros(size, [10, 0, 10]);
        }
    }
    for side in [514, 1022, 1024] {
        for size in [(side, 3), (3, side), (side, 4), (4, side)] {
            expect_zeros(size, [10, 4, 10]);
        }
    }
}

#[test]
fn four_merged_side_above_1025() {
    for (side, refusal) in [(512, 0), (513, 0), (514, 4), (515, 4), (1024, 4), (1025, 4)] {
        for size in [(side, 2), (2, side)] {
            Call::new(&vec![0; record::numbers(size)], size, Ask::Merge).expect(refusal);
        }
    }
}

/// Everything is long enough for the sides, and a sum is outside the range.
#[test]
fn four_before_eleven() {
    for (side, refusal) in [(513, 11), (514, 4)] {
        for size in [(side, 2), (2, side)] {
            let mut call = Call::new(&vec![LIMIT; record::numbers(size)], size, Ask::Merge);
            *call.details.last_mut().expect("a detail") = 1;
            call.expect(refusal);
            assert!(call.faults().contains(&(true, 11)));
        }
    }
}

#[test]
fn two_each_shorter_net_or_details() {
    for call in calls() {
        call.expect(0);
        for len in 0..call.net.len() {
            let mut short = call.clone();
            short.net.truncate(len);
            short.expect(2);
        }
        for len in 0..call.details.len() {
            let mut short = call.clone();
            short.details.truncate(len);
            short.expect(2);
        }
    }
}

/// A row or a column more than the lent numbers, and rows and columns exchanged.
#[test]
fn two_for_another_size() {
    let [split, merge, clean] = calls();
    let sized = |call: &Call, (w, h): Size| {
        let mut call = call.clone();
        (call.w, call.h) = (w, h);
        call
    };
    for call in [&split, &clean] {
        for (size, refusal) in [((3, 5), 0), ((5, 5), 2), ((7, 3), 2), ((1025, 1025), 2)] {
            let mut call = sized(call, size);
            call.out_len = record::numbers((3, 3));
            call.expect(refusal);
        }
    }
    for (size, refusal) in [((2, 3), 0), ((2, 2), 0), ((3, 3), 2), ((513, 513), 2)] {
        sized(&merge, size).expect(refusal);
    }
}

#[test]
fn five_each_shorter_output() {
    let [split, merge, _] = calls();
    for call in [&split, &merge] {
        for out_len in 0..=call.out_len {
            let refusal = if out_len < call.out_len { 5 } else { 0 };
            let call = call.clone();
            Call { out_len, ..call }.expect(refusal);
        }
    }
    let needed = record::details(FINE);
    for details_len in 0..needed + 2 {
        let refusal = if details_len < needed { 5 } else { 0 };
        let ask = Ask::Split { details_len };
        Call::new(&split.net, FINE, ask).expect(refusal);
    }
    // The two outputs of split need their own lengths.
    let ask = Ask::Split {
        details_len: record::numbers(COARSE),
    };
    let mut call = Call::new(&split.net, FINE, ask);
    call.out_len = needed;
    call.expect(5);
}

/// Expects number 3 for each of these numbers beyond `limit`, and not at the limits. A number
/// that stands at one of them is not tried at the other.
fn expect_range(call: &Call, numbers: fn(&mut Call) -> &mut Vec<i32>, limit: i32) {
    let mut call = call.clone();
    for position in 0..numbers(&mut call).len() {
        let before = numbers(&mut call)[position];
        for (value, refusal) in at_limits(limit, 3) {
            if before.abs() < limit || refusal == 3 || value == before {
                numbers(&mut call)[position] = value;
                call.expect(refusal);
            }
        }
        numbers(&mut call)[position] = before;
    }
}

/// A number at a limit among others there, since it would be number 11 of split elsewhere.
#[test]
fn three_each_number_of_a_net_and_of_a_coarse_net() {
    for end in [LIMIT, -LIMIT] {
        let net = vec![end; record::numbers(FINE)];
        for ask in [Ask::split(FINE), Ask::Merge] {
            expect_range(&Call::new(&net, FINE, ask), |c| &mut c.net, LIMIT);
        }
    }
}

#[test]
fn three_each_detail() {
    // All of them would be cleaned.
    let ones = vec![1; record::details(FINE)];
    let ask = Ask::Clean { t: 5 };
    expect_range(&Call::new(&ones, FINE, ask), |c| &mut c.net, DETAIL_LIMIT);
    let count = merged_details_len(COARSE).expect("a length");
    for end in [LIMIT, -LIMIT] {
        // The greatest details lead from one end of the range to the other.
        let coarse = vec![end; record::numbers(COARSE)];
        let call = Call::merge(&coarse, &vec![-2 * end; count], COARSE);
        expect_range(&call, |c| &mut c.details, DETAIL_LIMIT);
    }
}

/// The last coarse vertex alone, and each other one alone.
#[test]
fn eleven_each_kept_vertex() {
    let mut random = Random::new(252);
    let (w, h) = (7, 5);
    let net = nets::near_net(&mut random, (w, h), Numbers::Small, 50);
    for vertex in 0..w * h {
        let refusal = if kept(vertex, w) { 11 } else { 0 };
        for coordinate in 0..3 {
            for end in [LIMIT, -LIMIT] {
                let mut call = Call::new(&net, (w, h), Ask::split((w, h)));
                call.net[RECORD * vertex + POINT_RECORD + coordinate] = end;
                call.expect(refusal);
            }
        }
    }
}

#[test]
fn eleven_each_sum() {
    let count = merged_details_len(COARSE).expect("a length");
    for end in [LIMIT, -LIMIT] {
        let coarse = vec![end; record::numbers(COARSE)];
        for position in 0..count {
            for (detail, refusal) in [(end.signum(), 11), (end, 11), (-end.signum(), 0)] {
                let mut details = vec![0; count];
                details[position] = detail;
                Call::merge(&coarse, &details, COARSE).expect(refusal);
            }
        }
    }
}

#[test]
fn twelve_thresholds() {
    let [_, _, clean] = calls();
    for t in [0, 1, 1 << 24, 33_554_431, 33_554_432] {
        Call::new(&clean.net, FINE, Ask::Clean { t }).expect(0);
    }
    let far = [1 << 26, 1 << 31, (1 << 31) + 1, u32::MAX - 1, u32::MAX];
    for t in [33_554_433, 33_554_434].into_iter().chain(far) {
        Call::new(&clean.net, FINE, Ask::Clean { t }).expect(12);
    }
}
