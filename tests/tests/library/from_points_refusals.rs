//! Each refusal of a net through given points, one fault at a time and several at once. The
//! wrappers assert that it changes nothing.

use ups_tests::call::{Ask, Call};
use ups_tests::faults::{at_limits, control_faults, net_faults, output_faults, size_faults};
use ups_tests::nets::{self, Numbers, NUMBERS};
use ups_tests::oracle::LIMIT;
use ups_tests::order::{self, Group};
use ups_tests::random::Random;
use ups_tests::random_calls as calls;
use ups_tests::record::{self, GIVEN_RECORD};

const MAX: usize = usize::MAX;
const SIZE: Size = (4, 3);
/// Unsigned numbers whose lower bits alone, or whose product with nine, would be small.
const WIDE: [usize; 6] = [1 << 32, (1 << 32) + 3, 1 << 54, 1 << 60, 1 << 63, MAX - 1];
/// A third of 2^32 - 1.
const THIRD: i32 = 1_431_655_765;

type Size = (usize, usize);

fn call() -> Call {
    let given = nets::random_given(&mut Random::new(611), SIZE, Numbers::Mixed);
    Call::new(&given, SIZE, Ask::FromPoints)
}

/// p, t1 and t2 in one coordinate at one vertex, and zeros elsewhere.
fn single(position: usize, jet: [i32; 3]) -> Call {
    let mut given = vec![0; record::given(SIZE)];
    let (vertex, coordinate) = (position / 3, position % 3);
    for (n, x) in jet.into_iter().enumerate() {
        given[GIVEN_RECORD * vertex + 3 * n + coordinate] = x;
    }
    Call::new(&given, SIZE, Ask::FromPoints)
}

/// All coordinates of all vertices.
fn positions() -> std::ops::Range<usize> {
    0..3 * SIZE.0 * SIZE.1
}

#[test]
fn one_sides_outside_2_to_1025() {
    let long = vec![0; record::given((1026, 4))];
    let expect = |size, refusal| Call::new(&long, size, Ask::FromPoints).expect(refusal);
    for side in [2, 3, 4, 1024, 1025] {
        expect((side, 4), 0);
        expect((4, side), 0);
    }
    for side in [0, 1, 1026, 1027, 2049, MAX].into_iter().chain(WIDE) {
        for size in [
            (side, 4),
            (4, side),
            (side, 0),
            (1, side),
            (side, side),
            (1025, side),
        ] {
            expect(size, 1);
        }
    }
}

#[test]
fn two_each_shorter_given() {
    let call = call();
    call.expect(0);
    for len in 0..call.net.len() {
        Call::new(&call.net[..len], SIZE, Ask::FromPoints).expect(2);
    }
    // Rows and columns exchanged: the product is the same, one vertex more is not.
    for (size, refusal) in [
        ((SIZE.1, SIZE.0), 0),
        ((SIZE.0, SIZE.1 + 1), 2),
        ((SIZE.0 + 1, SIZE.1), 2),
        ((1025, 1025), 2),
    ] {
        Call::new(&call.net, size, Ask::FromPoints).expect(refusal);
    }
}

#[test]
fn five_each_shorter_output() {
    let call = call();
    for out_len in 0..call.out_len + 20 {
        let refusal = if out_len < call.out_len { 5 } else { 0 };
        let call = call.clone();
        Call { out_len, ..call }.expect(refusal);
    }
}

/// p, t1 and t2 of these control values, whose sum is three times a whole number.
fn given_of([c1, c2, c3]: [i32; 3]) -> [i32; 3] {
    assert_eq!((c1 + c2 + c3) % 3, 0);
    let p = (c1 + c2 + c3) / 3;
    [p, c1 - p, c2 - p]
}

/// c1, c2 and c3, each in each coordinate of each vertex, at both ends of the range and one beyond,
/// with the other two near 0 and near the same end.
#[test]
fn sixteen_each_control_value() {
    for position in positions() {
        for control in 0..3 {
            for (value, refusal) in [(LIMIT, 0), (-LIMIT, 0), (LIMIT + 1, 16), (-LIMIT - 1, 16)] {
                let sign = value.signum();
                for other in [0, -sign * LIMIT / 2, sign * (LIMIT - 2)] {
                    // The last one makes the sum three times a whole number.
                    let last = other + (-value - 2 * other).rem_euclid(3);
                    let mut controls = [value, other, last];
                    controls.rotate_right(control);
                    assert_eq!(controls[control], value);
                    single(position, given_of(controls)).expect(refusal);
                }
            }
        }
    }
}

/// Each given number by itself, the others being 0.
#[test]
fn sixteen_each_given_number() {
    for position in 0..record::given(SIZE) {
        for (value, refusal) in at_limits(LIMIT, 16) {
            let mut given = vec![0; record::given(SIZE)];
            given[position] = value;
            Call::new(&given, SIZE, Ask::FromPoints).expect(refusal);
        }
    }
}

/// c1, c2 and c3 without a limit.
fn sums([p, t1, t2]: [i32; 3]) -> [i64; 3] {
    let [p, t1, t2] = [p, t1, t2].map(i64::from);
    [p + t1, p + t2, p - t1 - t2]
}

/// Each control alone leaves 32 bits, upwards and downwards, while the others are in range. Of c3
/// the lower 32 bits can be in range too.
#[test]
fn sixteen_a_sum_beyond_32_bits() {
    let (most, least, quarter) = (i32::MAX, i32::MIN, 1 << 30);
    for (control, jet) in [
        (0, [quarter, most, -quarter]),
        (0, [-quarter, least, quarter]),
        (1, [quarter, -quarter, most]),
        (1, [-quarter, quarter, least]),
        // 2^32 - 1 and 1 - 2^32, and next to them.
        (2, [THIRD, -THIRD, -THIRD]),
        (2, [-THIRD, THIRD, THIRD]),
        (2, [THIRD + 1, -THIRD - 1, -THIRD - 1]),
        (2, [-THIRD - 1, THIRD + 1, THIRD + 1]),
        (2, [THIRD - 5, 5 - THIRD, 7 - THIRD]),
        (2, [most, least, least]),
        (2, [least, most, most]),
    ] {
        for (n, sum) in sums(jet).into_iter().enumerate() {
            let limit = i64::from(if n == control { most } else { LIMIT });
            assert_eq!(sum.abs() > limit, n == control, "{jet:?}: {sum}");
        }
        for position in positions() {
            single(position, jet).expect(16);
        }
    }
}

/// All numbers of a vertex at an end of 32 bits: c1 and c2 leave them.
#[test]
fn sixteen_at_the_ends_of_32_bits() {
    for end in [i32::MAX, i32::MIN] {
        for position in positions() {
            single(position, [end; 3]).expect(16);
        }
        Call::new(&vec![end; record::given(SIZE)], SIZE, Ask::FromPoints).expect(16);
    }
}

/// c1 and c2 in range, and c3 that would be in range if it were cut to 32 bits.
#[test]
fn sixteen_c3_that_would_wrap_into_range() {
    let mut random = Random::new(612);
    for _ in 0..2000 {
        let [c1, c2] = [0; 2].map(|_| random.between(-LIMIT, LIMIT));
        let cut = random.between(2 - LIMIT, LIMIT);
        let sign = random.pick(&[1, -1]);
        let wide = i64::from(c1) + i64::from(c2) + i64::from(cut) + sign * (1 << 32);
        // c3 gives way by up to 2, so that the sum is three times a whole number.
        let p = i32::try_from(wide.div_euclid(3)).expect("a third of 2^32");
        let position = random.below(positions().end);
        single(position, [p, c1 - p, c2 - p]).expect(16);
    }
}

/// Any of 32 bits, of all sizes, often at an end.
fn any_number(random: &mut Random) -> i32 {
    let (any, fewer_bits) = (random.word() as i32, random.below(32));
    let end = random.pick(&[i32::MIN, i32::MAX, LIMIT, -LIMIT, THIRD, -THIRD]);
    random.pick(&[any, any >> fewer_bits, end])
}

/// Any numbers at all in one place of the given points, or in all of them.
#[test]
fn random_numbers() {
    let mut random = Random::new(613);
    let mut seen = [0; 17];
    for round in 0..10_000 {
        let size = (2 + random.below(3), 2 + random.below(3));
        let mut given = nets::random_given(&mut random, size, NUMBERS[round % 4]);
        match random.below(8) {
            0 => given.fill_with(|| any_number(&mut random)),
            1 | 2 => {}
            _ => {
                let position = random.below(given.len());
                given[position] = any_number(&mut random);
            }
        }
        let refusal = Call::new(&given, size, Ask::FromPoints).check().refusal();
        seen[refusal as usize] += 1;
    }
    assert!(seen[0] >= 2000 && seen[16] >= 2000, "{seen:?}");
}

/// Any combination of faults.
#[test]
fn random_calls() {
    let mut random = Random::new(614);
    let mut seen = [0; 17];
    for _ in 0..4000 {
        let mut call = calls::from_points(&mut random);
        for _ in 0..random.below(4) {
            calls::change(&mut random, &mut call);
        }
        seen[call.check().refusal() as usize] += 1;
    }
    println!("calls by refusal: {seen:?}");
    for number in [0, 1, 2, 5, 16] {
        assert!(seen[number] >= 200, "too few calls with {number}: {seen:?}");
    }
}

/// The faults in the order in which they are put in: a later one may depend on what an earlier one
/// left.
fn faults() -> Vec<Group> {
    vec![
        (1, size_faults()),
        (16, control_faults()),
        (2, net_faults()),
        (5, output_faults(Ask::FromPoints)),
    ]
}

#[test]
fn each_fault_alone() {
    order::check_alone(&call(), &faults());
}

#[test]
fn each_pair_of_faults() {
    order::check_pairs(&call(), &faults(), |_, _| false);
}

#[test]
fn each_set_of_faults() {
    order::check_sets(&call(), &faults());
}
