//! The oracle's split, merge and clean, by hand.

use ups_tests::multiresolution::{self, Split, DETAIL_LIMIT};
use ups_tests::nets;
use ups_tests::oracle::{self, LIMIT};
use ups_tests::record::{self, DETAIL_RECORD, POINT_RECORD, RECORD};
use ups_tests::refinement;

const FINE: (usize, usize) = (3, 3);
const COARSE: (usize, usize) = (2, 2);
const NUMBERS: usize = record::numbers(FINE);
const COARSE_NUMBERS: usize = record::numbers(COARSE);
const DETAILS: usize = record::details(FINE);

fn split(net: &[i32]) -> Result<Split, u32> {
    multiresolution::split(net, FINE, COARSE_NUMBERS, DETAILS)
}

fn merge(coarse: &[i32], details: &[i32]) -> Result<Vec<i32>, u32> {
    multiresolution::merge(coarse, details, COARSE, NUMBERS)
}

/// A net with these x of c1, c2, c3 of a vertex, all other numbers zero.
fn with_triangle(count: usize, vertex: usize, triangle: [i32; 3]) -> Vec<i32> {
    let mut net = vec![0; count];
    for (k, x) in triangle.into_iter().enumerate() {
        net[RECORD * vertex + POINT_RECORD * k] = x;
    }
    net
}

/// x of c1, c2, c3, or of their details, at a vertex.
fn triangle(numbers: &[i32], vertex: usize, record: usize) -> [i32; 3] {
    [0, 1, 2].map(|k| numbers[record * vertex + record / 3 * k])
}

/// The other numbers of the coarse net are zero.
#[test]
fn coarse_control_triangles() {
    for (kept, coarse) in [
        ([80, 20, 20], [120, 0, 0]),
        // -2/3, 4/3, 4/3
        ([0, 1, 1], [-1, 1, 1]),
        // 5/3, -1/3, -1/3
        ([1, 0, 0], [2, 0, 0]),
        ([-1, 0, 0], [-2, 0, 0]),
        ([0, 3, 0], [-1, 5, -1]),
        // -2/3, -2/3, 10/3
        ([0, 0, 2], [-1, -1, 3]),
        // -7/3, -1/3, 17/3
        ([0, 1, 4], [-2, 0, 6]),
        ([7, 7, 7], [7, 7, 7]),
    ] {
        // The kept vertices of 3 by 3 and their places in the coarse net.
        for (fine, place) in [(0, 0), (2, 1), (6, 2), (8, 3)] {
            let split = split(&with_triangle(NUMBERS, fine, kept)).expect("accepted");
            let expected = with_triangle(COARSE_NUMBERS, place, coarse);
            assert_eq!(split.coarse, expected, "{kept:?} at {fine}");
            assert_eq!(triangle(&split.details, fine, DETAIL_RECORD), [0; 3]);
        }
    }
}

/// c1 = 3 at (0, 0) gives a coarse triangle of 5, -1, -1. Its refinement is taken off at the
/// vertices next to it.
#[test]
fn details_next_to_a_kept_vertex() {
    let split = split(&with_triangle(NUMBERS, 0, [3, 0, 0])).expect("accepted");
    assert_eq!(triangle(&split.coarse, 0, RECORD), [5, -1, -1]);
    let mut expected = vec![0; DETAILS];
    // (1, 0) halves the edge along e1: 0, (2·5 - 1)/4, (2·5 - 1)/4. (0, 1) halves the edge
    // along e3, which ends at (0, 0): 5/4, -1/4, (5 - 1)/2.
    for (vertex, details) in [(1, [0, -2, -2]), (3, [-1, 0, -2])] {
        for (k, x) in details.into_iter().enumerate() {
            expected[DETAIL_RECORD * vertex + DETAIL_RECORD / 3 * k] = x;
        }
    }
    assert_eq!(split.details, expected);
}

/// New vertices do not count for the coarse net: their numbers are details.
#[test]
fn new_vertices_are_details() {
    for vertex in [1, 3, 4, 5, 7] {
        let net = with_triangle(NUMBERS, vertex, [LIMIT, -5, 1]);
        let split = split(&net).expect("accepted");
        assert_eq!(split.coarse, [0; COARSE_NUMBERS]);
        let found = triangle(&split.details, vertex, DETAIL_RECORD);
        assert_eq!(found, [LIMIT, -5, 1], "vertex {vertex}");
    }
}

/// One refinement of the door corner is exact in all coordinates.
#[test]
fn the_refined_door_corner_splits_into_the_door_corner() {
    for z in [120, -120, 12, 0] {
        let corner = nets::door_corner(z);
        let refined = refinement::refined(&corner, COARSE, 1);
        let split = split(&refined).expect("accepted");
        assert_eq!(split.coarse, corner, "z = {z}");
        assert_eq!(split.details, [0; DETAILS], "z = {z}");
        assert_eq!(merge(&split.coarse, &split.details), Ok(refined));
    }
}

/// The same with all signs changed, since halves go away from zero.
#[test]
fn merged_numbers() {
    // c1 = 1 at (0, 0): 4/6, 1/6, 1/6 there, 0, 2/4, 2/4 at (1, 0), 1/4, 0, 1/2 at (0, 1).
    for (detail, expected) in [
        (0, [[1, 0, 0], [0, 1, 1], [0, 0, 1]]),
        (-1, [[0, -1, -1], [-1, 0, 0], [-1, -1, 0]]),
        (5, [[6, 5, 5], [5, 6, 6], [5, 5, 6]]),
    ] {
        for sign in [1, -1] {
            let coarse = with_triangle(COARSE_NUMBERS, 0, [sign, 0, 0]);
            let merged = merge(&coarse, &[sign * detail; DETAILS]).expect("accepted");
            let found = [0, 1, 3].map(|vertex| triangle(&merged, vertex, RECORD));
            let expected = expected.map(|triangle| triangle.map(|x| sign * x));
            assert_eq!(found, expected, "{sign}, {detail}");
            assert_eq!(triangle(&merged, 8, RECORD), [sign * detail; 3]);
        }
    }
}

#[test]
fn cleaned_details() {
    let mut details = vec![0; DETAILS];
    let signed = [-3, -2, -1, 0, 1, 2, 3, DETAIL_LIMIT, -DETAIL_LIMIT];
    details[..9].copy_from_slice(&signed);
    for (t, small) in [
        (0, [-3, -2, -1, 0, 1, 2, 3]),
        (1, [-3, -2, -1, 0, 1, 2, 3]),
        (2, [-3, -2, 0, 0, 0, 2, 3]),
        (3, [-3, 0, 0, 0, 0, 0, 3]),
        (4, [0; 7]),
        (33_554_432, [0; 7]),
    ] {
        let cleaned = multiresolution::clean(&details, FINE, t).expect("accepted");
        assert_eq!(cleaned[..7], small, "{t}");
        assert_eq!(cleaned[7..9], signed[7..]);
        assert_eq!(cleaned[9..], [0; DETAILS - 9]);
    }
    assert_eq!(multiresolution::clean(&details, FINE, 33_554_433), Err(12));
}

#[test]
fn eleven_at_the_ends_of_the_range() {
    for (kept, refusal) in [
        ([LIMIT, LIMIT, LIMIT], None),
        // A third beyond, two thirds beyond.
        ([LIMIT, LIMIT - 1, LIMIT], None),
        ([LIMIT, LIMIT - 1, LIMIT - 1], Some(11)),
        ([-LIMIT, -LIMIT, 1 - LIMIT], None),
        ([-LIMIT, 1 - LIMIT, 1 - LIMIT], Some(11)),
        ([LIMIT, 0, 0], Some(11)),
    ] {
        let found = split(&with_triangle(NUMBERS, 8, kept));
        assert_eq!(found.err(), refusal, "{kept:?}");
    }
    let coarse = [LIMIT; COARSE_NUMBERS];
    for (detail, refusal) in [(0, None), (1, Some(11)), (-DETAIL_LIMIT, None)] {
        let found = merge(&coarse, &[detail; DETAILS]);
        assert_eq!(found.err(), refusal, "{detail}");
    }
}

#[test]
fn sizes_of_coarse_nets_and_details() {
    for (fine, coarse) in [(3, 2), (5, 3), (1023, 512), (1025, 513)] {
        assert_eq!(multiresolution::coarse_size((fine, 3)), (coarse, 2));
        assert_eq!(multiresolution::coarse_size((3, fine)), (2, coarse));
        let details = multiresolution::merged_details_len((coarse, 2));
        assert_eq!(details, Some(record::details((fine, 3))));
    }
    assert_eq!(multiresolution::details_len((usize::MAX, 2)), None);
    assert_eq!(multiresolution::merged_details_len((usize::MAX, 2)), None);
}

/// The conditions are told one by one, whichever others hold.
#[test]
fn refusals_hold_for_the_greatest_sizes() {
    const MAX: usize = usize::MAX;
    let all = |faults: oracle::Faults| faults.iter().map(|f| f.0).collect::<Vec<_>>();
    let numbers = |faults: oracle::Faults| faults.iter().map(|f| f.1).collect::<Vec<_>>();
    let (net, details) = ([0; NUMBERS], [0; DETAILS]);
    let faults = |size, len| multiresolution::split_faults(&net, size, len, len);
    assert_eq!(numbers(faults(FINE, 0)), [1, 10, 2, 5, 3, 11]);
    assert_eq!(all(faults(FINE, MAX)), [false; 6]);
    assert_eq!(
        all(faults((MAX, MAX - 1), MAX)),
        [true, true, true, true, false, false]
    );
    let faults = |size, len| multiresolution::merge_faults(&net, &details, size, len);
    assert_eq!(numbers(faults(COARSE, 0)), [1, 4, 2, 5, 3, 11]);
    assert_eq!(all(faults(COARSE, NUMBERS)), [false; 6]);
    assert_eq!(
        all(faults((MAX, MAX), MAX)),
        [true, true, true, true, false, false]
    );
    let faults = |size, t| multiresolution::clean_faults(&details, size, t);
    assert_eq!(numbers(faults(FINE, 0)), [1, 10, 12, 2, 3]);
    assert_eq!(all(faults(FINE, 33_554_432)), [false; 5]);
    assert_eq!(
        all(faults((MAX, MAX - 1), u32::MAX)),
        [true, true, true, true, false]
    );
}
