//! How far the points on both sides of a seam lie apart: for each pair of depths the greatest
//! difference that a search over many small nets finds, beside the bound.

use ups::Net;
use ups_tests::kernel::{LentNet, Room};
use ups_tests::random::Random;
use ups_tests::record;
use ups_tests::seam::{one_place, SEAM_NUMBERS};

type Size = (usize, usize);

const SIZE: Size = (2, 2);
const MOST: usize = 6;
const NETS: usize = 3000;
/// Places of each grid for each net.
const PLACES: usize = 120;

/// Numbers from the first to the second. Next to zero halves go both ways, elsewhere one way; with
/// numbers far from each other the later steps still round.
const RANGES: [(i32, i32); 5] = [(-3, 3), (0, 11), (-40, 0), (0, 1000), (-1000, 1000)];

/// What the search finds at least, by how many steps one side has more.
const FOUND: [u32; MOST + 1] = [0, 1, 1, 2, 2, 2, 3];

/// The greatest differences seen, by the steps on both sides.
type Seen = [[u32; MOST + 1]; MOST + 1];

/// A place of the grid after k steps: any, or next to a line of the cell.
fn random_place(random: &mut Random, k: usize) -> Size {
    let edge = 1024 << k;
    let (any, other) = (random.below(edge + 1), random.below(edge + 1));
    let beside = random.below(3);
    let near = |x: usize| (x + beside).saturating_sub(1).min(edge);
    match random.below(8) {
        0 => (any, near(0)),
        1 => (any, near(edge)),
        2 => (near(0), any),
        3 => (near(edge), any),
        4 => (any, near(edge - any)),
        5 => (any, near(any)),
        _ => (any, other),
    }
}

/// The points at one place after each number of steps from k on.
fn points(nets: &[Net], k: usize, (p, q): Size) -> Vec<[i32; 3]> {
    let finer = nets[k..].iter().enumerate();
    let point = |(n, net): (usize, &Net)| net.point(p << n, q << n);
    finer.map(|at| point(at).expect("a place")).collect()
}

fn difference(one: [i32; 3], two: [i32; 3]) -> u32 {
    let differences = one.into_iter().zip(two).map(|(a, b)| a.abs_diff(b));
    differences.max().expect("three")
}

/// The points as the call gives them, whichever side is the first.
fn check_call(lent: &LentNet, steps: [usize; 2], place: Size, due: [[i32; 3]; 2]) {
    for (steps, due) in [(steps, due), ([steps[1], steps[0]], [due[1], due[0]])] {
        let rooms = steps.map(|k| Room::of_steps(SIZE, k, 0));
        let answer = lent.seam_points(SIZE, one_place(steps, place), rooms, SEAM_NUMBERS);
        let points = answer.expect("accepted").points;
        assert_eq!(points, due, "{steps:?}, {place:?}");
    }
}

/// One net at a place of the grid after `from` steps, at each pair of depths from there on. What
/// is greater than all before is asked of the call itself.
///
/// The net after l steps is the net after k, refined by l - k more. So by demand 3 of that net the
/// points are within (l - k + 2)/2 of each other, which is never more than is promised.
fn search(lent: &LentNet, nets: &[Net], from: usize, place: Size, seen: &mut Seen) {
    let points = points(nets, from, place);
    for (n, &one) in points.iter().enumerate() {
        for (m, &two) in points.iter().enumerate().skip(n + 1) {
            let (k, l) = (from + n, from + m);
            let apart = difference(one, two);
            let near = 2 * apart as usize <= l - k + 2;
            assert!(near, "{k} and {l} steps, {place:?}: {apart}");
            if apart > seen[k][l] {
                let at = (place.0 << n, place.1 << n);
                check_call(lent, [k, l], at, [one, two]);
                (seen[k][l], seen[l][k]) = (apart, apart);
            }
        }
    }
}

fn print(seen: &Seen) {
    println!("greatest differences, of at most (k + l + 2)/2, by k down and l across:");
    for (k, row) in seen.iter().enumerate() {
        let cell = |l: usize| match l {
            l if l == k => "0 of 0".to_owned(),
            l => format!("{} of {:.1}", row[l], (k + l + 2) as f64 / 2.0),
        };
        let cells: Vec<String> = (0..=MOST).map(|l| format!("{:>10}", cell(l))).collect();
        println!("{k}{}", cells.concat());
    }
}

#[test]
fn the_greatest_differences_found() {
    let mut random = Random::new(821);
    let mut seen = Seen::default();
    for round in 0..NETS {
        let (least, greatest) = RANGES[round % RANGES.len()];
        let number = |_| random.between(least, greatest);
        let numbers: Vec<i32> = (0..record::numbers(SIZE)).map(number).collect();
        let (lent, net) = (LentNet::new(&numbers), Net::new(2, 2, &numbers));
        let refined = |k| net.clone()?.refine(k);
        let nets: Result<Vec<Net>, _> = (0..=MOST).map(refined).collect();
        let nets = nets.expect("accepted");
        for k in 0..MOST {
            for _ in 0..PLACES {
                let place = random_place(&mut random, k);
                search(&lent, &nets, k, place, &mut seen);
            }
        }
    }
    print(&seen);
    for (k, row) in seen.iter().enumerate() {
        for (l, &apart) in row.iter().enumerate() {
            assert!(apart >= FOUND[k.abs_diff(l)], "{k} and {l} steps");
        }
    }
}
