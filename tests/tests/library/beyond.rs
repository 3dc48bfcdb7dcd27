//! Numbers beyond the last vertex of the net, and details and given points beyond it, are neither
//! read nor changed.

use ups_tests::call::{Answer, Ask, Call};
use ups_tests::kernel::{LentDetails, LentGiven, LentNet};
use ups_tests::multiresolution::DETAIL_LIMIT;
use ups_tests::nets::{self, Numbers, NUMBERS};
use ups_tests::oracle::LIMIT;
use ups_tests::pages::Side;
use ups_tests::random::Random;
use ups_tests::record::{self, GIVEN_RECORD, RECORD};
use ups_tests::seam::one_place;

/// All calls on the last vertex and in the last cell, and some others.
fn asks(random: &mut Random, (w, h): (usize, usize)) -> Vec<Ask> {
    let mut asks = vec![
        Ask::Vertex { i: 0, j: 0 },
        Ask::Vertex { i: w - 1, j: h - 1 },
        Ask::Write { written_len: 1 },
        Ask::refined_point((w, h), 1, (1024, 2048 * (h - 1))),
        Ask::seam_points((w, h), one_place([0, 1], (512, 1024 * (h - 1)))),
    ];
    asks.extend([0, 1, 2].map(|k| Ask::refine((w, h), k)));
    for down in [0, 1] {
        for (i, j) in [(0, 0), (w - 2, 0), (0, h - 2), (w - 2, h - 2)] {
            asks.push(Ask::Bezier { i, j, down });
        }
    }
    for (p, q) in nets::places(random, (w, h)) {
        asks.push(Ask::Surface { p, q });
        asks.push(Ask::View { p, q });
    }
    asks
}

#[test]
fn junk_beyond_the_net_changes_no_answer() {
    let mut random = Random::new(71);
    for round in 0..60 {
        let size = nets::random_size(&mut random);
        let exact = nets::random_net(&mut random, size, NUMBERS[round % 4]);
        let mut longer = Vec::new();
        for extra in [1, RECORD - 1, RECORD, 100, RECORD * size.0] {
            let mut in_range = exact.clone();
            let mut out_of_range = exact.clone();
            for _ in 0..extra {
                in_range.push(nets::random_number(&mut random, Numbers::Large));
                let beyond = [LIMIT + 1, -LIMIT - 1, i32::MIN, i32::MAX];
                out_of_range.push(random.pick(&beyond));
            }
            longer.push(LentNet::new(&in_range));
            longer.push(LentNet::new(&out_of_range));
        }
        for ask in asks(&mut random, size) {
            let call = Call::new(&exact, size, ask);
            let answer = call.check();
            assert!(!matches!(answer, Answer::Refused(_)), "{call:?}");
            for lent in &longer {
                assert_eq!(call.of_kernel(lent), answer, "{call:?}");
            }
        }
    }
}

/// A net of the exact length in read-only pages, with an inaccessible page right behind it or
/// right in front of it.
#[test]
fn nothing_outside_the_net_is_read_and_the_net_is_not_written() {
    let mut random = Random::new(72);
    for round in 0..60 {
        let size = nets::random_size(&mut random);
        let numbers = nets::random_net(&mut random, size, NUMBERS[round % 4]);
        for side in [Side::Front, Side::End] {
            let lent = LentNet::in_pages(&numbers, side);
            for ask in asks(&mut random, size) {
                let call = Call::new(&numbers, size, ask);
                assert_eq!(call.of_kernel(&lent), call.of_oracle(), "{call:?}");
            }
        }
    }
}

#[test]
fn a_short_net_is_not_read_beyond_its_end() {
    let mut random = Random::new(73);
    let size = (4, 3);
    let numbers = nets::random_net(&mut random, size, Numbers::Mixed);
    for len in 0..numbers.len() {
        let lent = LentNet::in_pages(&numbers[..len], Side::End);
        for ask in asks(&mut random, size) {
            let call = Call::new(&numbers[..len], size, ask);
            assert_eq!(call.of_kernel(&lent), Answer::Refused(2), "{call:?}");
        }
    }
}

/// A net taken as a smaller one: what lies behind its last row is not looked at.
#[test]
fn fewer_rows_of_a_longer_net() {
    let mut random = Random::new(74);
    for round in 0..60 {
        let (w, h) = nets::random_size(&mut random);
        let mut numbers = nets::random_net(&mut random, (w, h), NUMBERS[round % 4]);
        for rows in 2..=h {
            numbers[record::numbers((w, rows))..].fill(i32::MIN);
            for ask in asks(&mut random, (w, rows)) {
                let call = Call::new(&numbers, (w, rows), ask);
                call.expect(0);
            }
            numbers = nets::random_net(&mut random, (w, h), NUMBERS[round % 4]);
        }
    }
}

/// Numbers and details in range and beyond it behind those that count. For clean the wrapper
/// asserts that they stay.
#[test]
fn junk_beyond_nets_and_details_of_split_merge_and_clean() {
    let mut random = Random::new(75);
    // Ones would be cleaned.
    let junk = [1, -1, LIMIT + 1, -DETAIL_LIMIT - 1, i32::MIN, i32::MAX];
    for _ in 0..40 {
        let size = (2 + random.below(4), 2 + random.below(4));
        for call in Call::multiresolution(&mut random, size) {
            let answer = call.check();
            assert_eq!(answer.refusal(), 0, "{call:?}");
            for (more, more_details) in [(1, 0), (0, 1), (RECORD, RECORD), (100, 7), (7, 100)] {
                let mut longer = call.clone();
                let net = (0..more).map(|_| random.pick(&junk));
                longer.net.extend(net);
                let details = (0..more_details).map(|_| random.pick(&junk));
                longer.details.extend(details);
                assert_eq!(longer.check(), answer, "{longer:?}");
            }
        }
    }
}

/// The inputs of split and merge next to an inaccessible page, of the exact lengths and, for a
/// refusal, one number shorter.
#[test]
fn nothing_outside_the_inputs_of_split_and_merge_is_read() {
    let mut random = Random::new(76);
    for _ in 0..40 {
        let size = (2 + random.below(4), 2 + random.below(4));
        let [split, merge, _] = Call::multiresolution(&mut random, size);
        for side in [Side::Front, Side::End] {
            let net = LentNet::in_pages(&split.net, side);
            assert_eq!(split.of_kernel(&net), split.of_oracle(), "{split:?}");
            let shorter = |numbers: &[i32]| LentNet::in_pages(&numbers[1..], side);
            let refused = Answer::Refused(2);
            assert_eq!(split.of_kernel(&shorter(&split.net)), refused, "{split:?}");
            let coarse = LentNet::in_pages(&merge.net, side);
            let details = LentDetails::in_pages(&merge.details, side);
            let merged = coarse.merge(&details, size, merge.out_len);
            assert_eq!(merged, merge.of_oracle().numbers(), "{merge:?}");
            let short_details = shorter(&merge.details);
            let short_coarse = shorter(&merge.net);
            for (coarse, details) in [(&short_coarse, &details), (&coarse, &short_details)] {
                let answer = coarse.merge(details, size, merge.out_len);
                assert_eq!(answer, Err(2), "{merge:?}");
            }
        }
    }
}

/// What lies behind the given points that count, whatever it is, and behind the net in its output,
/// which is longer. The wrapper asserts that it stays.
#[test]
fn junk_beyond_given_points() {
    let mut random = Random::new(77);
    for round in 0..60 {
        let size = nets::random_size(&mut random);
        let given = nets::random_given(&mut random, size, NUMBERS[round % 4]);
        let call = Call::new(&given, size, Ask::FromPoints);
        let answer = call.check();
        assert_eq!(answer.refusal(), 0, "{call:?}");
        for extra in [1, GIVEN_RECORD - 1, GIVEN_RECORD, 100] {
            let mut longer = call.clone();
            let junk = [0, LIMIT + 1, i32::MIN, i32::MAX];
            longer.net.extend((0..extra).map(|_| random.pick(&junk)));
            longer.out_len += random.below(2 * extra);
            assert_eq!(longer.check(), answer, "{longer:?}");
        }
    }
}

/// The given points next to an inaccessible page, of the exact length and, for a refusal, shorter.
#[test]
fn nothing_outside_the_given_points_is_read() {
    let mut random = Random::new(78);
    for round in 0..60 {
        let size = nets::random_size(&mut random);
        let given = nets::random_given(&mut random, size, NUMBERS[round % 4]);
        let call = Call::new(&given, size, Ask::FromPoints);
        for side in [Side::Front, Side::End] {
            let lent = LentGiven::in_pages(&given, side);
            assert_eq!(call.of_kernel(&lent), call.of_oracle(), "{call:?}");
            for len in [given.len() - 1, given.len() / 2, GIVEN_RECORD, 0] {
                let shorter = LentGiven::in_pages(&given[..len], side);
                assert_eq!(call.of_kernel(&shorter), Answer::Refused(2), "{call:?}");
            }
        }
    }
}
