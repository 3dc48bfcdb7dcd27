//! The safe interface of the crate `ups` against the oracle: functions on lent slices, nets and
//! splits. What is lent is guarded: a refusal changes nothing of it, and an accepted call nothing
//! behind its result.

use std::collections::BTreeSet;
use ups::{Net, Refusal, Split};
use ups_tests::call::{Answer, Ask, Call, Reading};
use ups_tests::changes;
use ups_tests::hermite;
use ups_tests::multiresolution::{self, DETAIL_LIMIT};
use ups_tests::netfile::{self, FileNet};
use ups_tests::nets::{self, Numbers, NUMBERS};
use ups_tests::oracle::{self, LIMIT};
use ups_tests::random::Random;
use ups_tests::random_calls as calls;
use ups_tests::record;
use ups_tests::seam::{RefinedPlace, Seam};

const MAX: usize = usize::MAX;
/// Calls of each kind.
const CALLS: usize = 2000;
const FILES: usize = 20_000;
/// Sides, vertices, places, steps and thresholds, most of them refused.
const WILD: [usize; 8] = [0, 1, 2, 3, 1025, 1026, 1 << 32, MAX];
const BEYOND: [i32; 4] = [LIMIT + 1, -LIMIT - 1, i32::MIN, i32::MAX];
const BEYOND_DETAILS: [i32; 4] = [DETAIL_LIMIT + 1, -DETAIL_LIMIT - 1, i32::MIN, i32::MAX];
const SIZE: Size = (3, 2);
/// That of one refinement.
const FINE: Size = (5, 3);

type Size = (usize, usize);

/// A random call, and its refusals on lent slices and of a net, 0 for none. A net that is lent
/// may have numbers out of range where a call does not look; of a split, 4 has a test of its own.
type Kind = (fn(&mut Random) -> Call, &'static [u32], &'static [u32]);

const KINDS: [Kind; 16] = [
    (calls::vertex, &[0, 1, 2, 6], &[0, 1, 2, 3, 6]),
    (calls::bezier, &[0, 1, 2, 3, 5, 6], &[0, 1, 2, 3, 6]),
    (calls::surface, &[0, 1, 2, 3, 5, 6], &[0, 1, 2, 3, 6]),
    (calls::view, &[0, 1, 2, 3, 5, 6], &[0, 1, 2, 3, 6]),
    (calls::write, &[0, 1, 2, 3, 5], &[0, 1, 2, 3]),
    (calls::refine, &[0, 1, 2, 3, 4, 5], &[0, 1, 2, 3, 4]),
    (
        calls::refined_point,
        &[0, 1, 2, 3, 4, 5, 6],
        &[0, 1, 2, 3, 4, 6],
    ),
    (
        calls::seam_points,
        &[0, 1, 2, 3, 4, 5, 6],
        &[0, 1, 2, 3, 4, 6],
    ),
    (
        calls::split,
        &[0, 1, 2, 3, 5, 10, 11],
        &[0, 1, 2, 3, 10, 11],
    ),
    (calls::merge, &[0, 1, 2, 3, 4, 5, 11], &[0, 1, 2, 3, 11]),
    (calls::from_points, &[0, 1, 2, 5, 16], &[0, 1, 2, 16]),
    (
        calls::bezier_outlined,
        &[0, 1, 2, 3, 5, 6, 13, 15],
        &[0, 1, 2, 3, 6, 13, 14, 15],
    ),
    (
        calls::surface_outlined,
        &[0, 1, 2, 3, 5, 6, 13, 15],
        &[0, 1, 2, 3, 6, 13, 14, 15],
    ),
    (
        calls::view_outlined,
        &[0, 1, 2, 3, 5, 6, 13, 15],
        &[0, 1, 2, 3, 6, 13, 14, 15],
    ),
    (
        calls::refine_outlined,
        &[0, 1, 2, 3, 4, 5, 13, 14],
        &[0, 1, 2, 3, 4, 13, 14],
    ),
    (
        calls::refined_point_outlined,
        &[0, 1, 2, 3, 4, 5, 6, 13, 14, 15],
        &[0, 1, 2, 3, 4, 6, 13, 14, 15],
    ),
];

/// Compares two answers to calls of one kind with up to three changes, and expects that these
/// refusals come up.
fn check_kind(make: fn(&mut Random) -> Call, refusals: &[u32], answers: fn(&Call) -> [Answer; 2]) {
    let mut random = Random::new(301);
    let mut seen = BTreeSet::new();
    for _ in 0..CALLS {
        let mut call = make(&mut random);
        for _ in 0..random.below(4) {
            calls::change(&mut random, &mut call);
        }
        let [answer, expected] = answers(&call);
        assert_eq!(answer, expected, "{call:?}");
        seen.insert(answer.refusal());
    }
    assert_eq!(seen, refusals.iter().copied().collect());
}

#[test]
fn functions_on_lent_slices() {
    for (make, refusals, _) in KINDS {
        check_kind(make, refusals, |call| [call.of_lent(), call.of_oracle()]);
    }
    let clean: Kind = (calls::clean, &[0, 1, 2, 3, 10, 12], &[]);
    let check: Kind = (calls::check, &[0, 1, 2, 5, 13, 14], &[]);
    for (make, refusals, _) in [clean, check] {
        check_kind(make, refusals, |call| [call.of_lent(), call.of_oracle()]);
    }
}

#[test]
fn calls_of_nets() {
    for (make, _, refusals) in KINDS {
        check_kind(make, refusals, |call| [call.of_net(), call.of_oracle_net()]);
    }
}

/// Every call with these arguments.
fn wild_asks(a: usize, b: usize) -> [Ask; 12] {
    [
        Ask::Vertex { i: a, j: b },
        Ask::Bezier {
            i: a,
            j: b,
            down: 1,
        },
        Ask::Surface { p: a, q: b },
        Ask::View { p: a, q: b },
        Ask::Write { written_len: 1 },
        Ask::Refine {
            k: a,
            scratch_len: 0,
        },
        Ask::RefinedPoint {
            k: a,
            p: b,
            q: b,
            scratch_len: 0,
            point_len: 0,
        },
        Ask::SeamPoints(Seam {
            places: [(a, (b, 0)), (b, (a, 0))].map(|(k, place)| RefinedPlace { k, place }),
            scratch_lens: [0; 2],
            points_len: 0,
        }),
        Ask::Split { details_len: 0 },
        Ask::Merge,
        Ask::FromPoints,
        Ask::Clean { t: a as u32 },
    ]
}

/// On an empty net and on one of 2 by 2, or given points, with empty outputs and no details.
#[test]
fn wild_arguments_to_functions_on_lent_slices() {
    let zeros = vec![0; record::numbers((2, 2))];
    for (w, h) in pairs() {
        for (a, b) in pairs() {
            for ask in wild_asks(a, b) {
                for net in [&[], &zeros[..]] {
                    let mut call = Call::new(net, (2, 2), ask);
                    (call.w, call.h) = (w, h);
                    (call.out_len, call.out2_len) = (0, 0);
                    call.details.clear();
                    assert_eq!(call.of_lent(), call.of_oracle(), "{call:?}");
                }
            }
        }
    }
}

fn pairs() -> impl Iterator<Item = (usize, usize)> {
    WILD.into_iter().flat_map(|a| WILD.map(|b| (a, b)))
}

#[test]
fn wild_arguments_to_nets() {
    let zeros = vec![0; record::numbers((2, 2))];
    for (a, b) in pairs() {
        for net in [&[], &zeros[..]] {
            for ask in [Ask::refine((a, b), 0), Ask::FromPoints] {
                let making = Call::new(net, (a, b), ask);
                assert_eq!(making.of_net(), making.of_oracle_net(), "{making:?}");
            }
        }
        // A net has no details to clean.
        let [asks @ .., _] = wild_asks(a, b);
        for ask in asks {
            let call = Call::new(&zeros, (2, 2), ask);
            assert_eq!(call.of_net(), call.of_oracle_net(), "{call:?}");
        }
    }
}

fn net_of(numbers: &[i32], (w, h): Size) -> Net {
    Net::new(w, h, numbers).expect("an accepted net")
}

#[test]
fn nets_of_short_long_and_spoiled_numbers() {
    let mut random = Random::new(302);
    for numbers in NUMBERS {
        let numbers = nets::random_net(&mut random, SIZE, numbers);
        let new = |numbers: &[i32]| Net::new(SIZE.0, SIZE.1, numbers);
        let net = net_of(&numbers, SIZE);
        assert_eq!((net.width(), net.height()), SIZE);
        assert_eq!(net.numbers(), numbers);
        for len in 0..numbers.len() {
            assert_eq!(new(&numbers[..len]), Err(Refusal::SHORT));
        }
        let long = [&numbers[..], &BEYOND].concat();
        assert_eq!(new(&long), Ok(net.clone()));
        assert_eq!(net.into_numbers(), numbers);
        for at in 0..numbers.len() {
            for beyond in BEYOND {
                let mut spoiled = long.clone();
                spoiled[at] = beyond;
                assert_eq!(new(&spoiled), Err(Refusal::RANGE));
            }
        }
    }
}

#[test]
fn nets_through_short_long_and_spoiled_points() {
    let mut random = Random::new(310);
    for numbers in NUMBERS {
        let given = nets::random_given(&mut random, SIZE, numbers);
        let through = |given: &[i32]| Net::from_points(SIZE.0, SIZE.1, given);
        let net = through(&given).expect("accepted");
        assert_eq!((net.width(), net.height()), SIZE);
        let due = hermite::from_points(&given, SIZE, MAX).expect("accepted");
        assert_eq!(net.numbers(), due);
        for (n, vertex) in given.chunks_exact(record::GIVEN_RECORD).enumerate() {
            let point = net.point(1024 * (n % SIZE.0), 1024 * (n / SIZE.0));
            assert_eq!(point.as_ref().ok(), vertex.first_chunk());
        }
        for len in 0..given.len() {
            assert_eq!(through(&given[..len]), Err(Refusal::SHORT));
        }
        let long = [&given[..], &BEYOND].concat();
        assert_eq!(through(&long), Ok(net));
        for at in 0..given.len() {
            for beyond in [i32::MIN, i32::MAX] {
                let mut spoiled = long.clone();
                spoiled[at] = beyond;
                assert_eq!(through(&spoiled), Err(Refusal::CONTROL_RANGE));
            }
        }
    }
}

#[test]
fn records_of_vertices() {
    let mut random = Random::new(303);
    for numbers in NUMBERS {
        let size = nets::random_size(&mut random);
        let numbers = nets::random_net(&mut random, size, numbers);
        let net = net_of(&numbers, size);
        let exact = oracle::Net::new(&numbers, size.0, size.1);
        for j in 0..size.1 {
            for i in 0..size.0 {
                let expected = exact.vertex((i as i128, j as i128));
                assert_eq!(net.vertex(i, j), Ok(expected));
            }
        }
    }
}

fn of_file(file: &[u8]) -> Result<FileNet, u32> {
    let net = Net::from_file(file).map_err(Refusal::number)?;
    let size = (net.width(), net.height());
    let numbers = net.into_numbers();
    Ok(FileNet { size, numbers })
}

/// The net of a file with room for it, after comparison with the oracle's; 0 or its refusal.
fn check_file(file: &[u8]) -> u32 {
    let answer = of_file(file);
    assert_eq!(answer, netfile::read(file, MAX, 2), "{file:02X?}");
    answer.err().unwrap_or(0)
}

#[test]
fn files_byte_for_byte() {
    let mut random = Random::new(304);
    for _ in 0..100 {
        let size = nets::random_size(&mut random);
        let numbers = nets::random_net(&mut random, size, Numbers::Mixed);
        let (net, file) = (net_of(&numbers, size), netfile::file(&numbers, size));
        assert_eq!(net.to_file().as_ref(), Ok(&file));
        assert_eq!(Net::from_file(&file), Ok(net));
    }
}

#[test]
fn cut_and_lengthened_files() {
    let numbers = nets::random_net(&mut Random::new(305), SIZE, Numbers::Mixed);
    let mut file = netfile::file(&numbers, SIZE);
    for len in 0..file.len() {
        assert_eq!(check_file(&file[..len]), 7);
    }
    assert_eq!(check_file(&file), 0);
    file.push(0);
    assert_eq!(check_file(&file), 9);
}

/// The lent slice is sometimes too short; what `from_file` lends never is.
#[test]
fn changed_files() {
    let mut random = Random::new(306);
    let mut seen = BTreeSet::new();
    for _ in 0..FILES {
        let size = (2 + random.below(3), 2 + random.below(3));
        let numbers = nets::random_net(&mut random, size, Numbers::Mixed);
        let mut file = netfile::file(&numbers, size);
        for _ in 0..random.below(4) {
            changes::change(&mut random, &mut file);
        }
        seen.insert(check_file(&file));
        let reading = Reading::new(&file, numbers.len() + 9 - random.below(11));
        assert_eq!(reading.of_lent(), reading.of_oracle(), "{reading:?}");
    }
    assert_eq!(seen, BTreeSet::from([0, 1, 3, 7, 8, 9]));
}

fn random_parts(random: &mut Random, most: i32) -> (Net, Vec<i32>) {
    let coarse = nets::random_net(random, SIZE, Numbers::Small);
    let details = nets::random_details(random, FINE, most);
    (net_of(&coarse, SIZE), details)
}

#[test]
fn splits_of_short_long_and_spoiled_details() {
    let (coarse, details) = random_parts(&mut Random::new(307), DETAIL_LIMIT);
    let new = |details: &[i32]| Split::new(coarse.clone(), details);
    let split = new(&details).expect("an accepted split");
    assert_eq!((split.coarse(), split.details()), (&coarse, &details[..]));
    for len in 0..details.len() {
        assert_eq!(new(&details[..len]), Err(Refusal::SHORT));
    }
    let long = [&details[..], &BEYOND_DETAILS].concat();
    assert_eq!(new(&long), Ok(split));
    for at in 0..details.len() {
        for beyond in BEYOND_DETAILS {
            let mut spoiled = long.clone();
            spoiled[at] = beyond;
            assert_eq!(new(&spoiled), Err(Refusal::RANGE));
        }
    }
}

#[test]
fn no_split_with_a_merged_side_above_1025() {
    let depth = Some(Refusal::DEPTH);
    for (side, refusal) in [(513, None), (514, depth), (1025, depth)] {
        for size in [(side, 2), (2, side)] {
            let coarse = net_of(&vec![0; record::numbers(size)], size);
            let count = multiresolution::merged_details_len(size).expect("a length");
            let new = |details: &[i32]| Split::new(coarse.clone(), details).err();
            assert_eq!(new(&vec![0; count]), refusal);
            assert_eq!(new(&[]), refusal.or(Some(Refusal::SHORT)));
        }
    }
}

#[test]
fn splits_cleaned_and_merged() {
    let mut random = Random::new(308);
    let mut seen = BTreeSet::new();
    for _ in 0..CALLS {
        let most = random.pick(&[50, LIMIT, DETAIL_LIMIT]);
        let (coarse, details) = random_parts(&mut random, most);
        let mut split = Split::new(coarse, &details).expect("an accepted split");
        let t = random.below(most as usize + 1) as u32;
        let merged = |split: &Split| split.merge().map_err(Refusal::number);
        let expected = |details: &[i32]| {
            let net = multiresolution::merge(split.coarse().numbers(), details, SIZE, MAX)?;
            Ok(net_of(&net, FINE))
        };
        let before = expected(&details);
        let cleaned = multiresolution::clean(&details, FINE, t).expect("accepted");
        let after = expected(&cleaned);
        assert_eq!(merged(&split), before);
        assert_eq!(split.clean(t), Ok(()));
        assert_eq!(split.details(), cleaned);
        assert_eq!(merged(&split), after);
        seen.extend([before, after].map(|answer| answer.err().unwrap_or(0)));
    }
    assert_eq!(seen, BTreeSet::from([0, 11]));
}

#[test]
fn a_refused_threshold_changes_nothing() {
    let (coarse, details) = random_parts(&mut Random::new(309), DETAIL_LIMIT);
    let mut split = Split::new(coarse, &details).expect("an accepted split");
    for t in [DETAIL_LIMIT as u32 + 1, u32::MAX] {
        assert_eq!(split.clean(t), Err(Refusal::THRESHOLD));
        assert_eq!(split.details(), details);
    }
    assert_eq!(split.clean(DETAIL_LIMIT as u32), Ok(()));
}
