//! `seam`: its figures against the oracle's own.

use crate::lines::{lines, Line};
use crate::running::{small_net, Folder, Size, CORNER};
use ups_tests::nets::{self, Numbers, NUMBERS};
use ups_tests::random::Random;
use ups_tests::refinement;
use ups_tests::seam;

/// What `seam` prints of the places that are on the door, each in the grid after the fewer steps;
/// nothing where none is.
pub fn compared(
    net: &[i32],
    size: Size,
    depths: [usize; 2],
    line: &Line,
    on_door: impl Fn(Size) -> bool,
) -> Option<String> {
    let nets = depths.map(|k| refinement::refined(net, size, k));
    let coarser = depths[0].min(depths[1]);
    let mut count = 0;
    // The greatest difference of each coordinate with its place in both grids.
    let mut greatest = [None; 3];
    for place in line.places(size, coarser, 1).filter(|&at| on_door(at)) {
        count += 1;
        let sides = seam::one_place(depths, place);
        let [one, two] = [0, 1].map(|n| sides[n].point_of(&nets[n], size));
        for (n, greatest) in greatest.iter_mut().enumerate() {
            let apart = one[n].abs_diff(two[n]);
            if greatest.is_none_or(|(most, _)| apart > most) {
                *greatest = Some((apart, sides.map(|side| side.place)));
            }
        }
    }
    let mut text = format!("places {count}\n");
    for (name, greatest) in ["x", "y", "z"].into_iter().zip(greatest) {
        let (apart, [(p, q), (p2, q2)]) = greatest?;
        text += &format!("{name} {apart} at {p} {q} and {p2} {q2}\n");
    }
    Some(text + &format!("allowance {}\n", allowance(depths)))
}

/// The promise of the seam: (k + l + 2)/2 units, rounded down since points are whole.
fn allowance([k, l]: [usize; 2]) -> usize {
    if k == l {
        0
    } else {
        (k + l + 2) / 2
    }
}

/// The differences in x, y and z that a text tells, each within its allowance.
fn within(text: &str) -> [usize; 3] {
    let lines: Vec<Vec<&str>> = text.lines().map(|line| line.split(' ').collect()).collect();
    let number = |line: usize| lines[line][1].parse().expect("a number");
    let allowance = number(4);
    [1, 2, 3].map(number).map(|apart: usize| {
        assert!(apart <= allowance, "{text}");
        apart
    })
}

#[test]
fn the_door_corner() {
    let folder = Folder::new("seam-corner");
    folder.put_corner("corner");
    let net = nets::door_corner(120);
    for line in lines(CORNER) {
        for depths in [[0, 0], [0, 1], [1, 0], [0, 2], [2, 0], [1, 2], [0, 4]] {
            let [k, l] = depths;
            let arguments = format!("seam corner -k {k} -l {l} --along {}", line.name);
            let expected = compared(&net, CORNER, depths, &line, |_| true);
            assert_eq!(Some(folder.printed(&arguments)), expected, "{arguments}");
        }
    }
    // The same in another order of the arguments.
    assert_eq!(
        folder.printed("seam --along row 1 -l 1 corner -k 0"),
        folder.printed("seam corner -k 0 -l 1 --along top"),
    );
}

#[test]
fn random_nets() {
    let folder = Folder::new("seam-random");
    let mut random = Random::new(341);
    let mut apart = 0;
    for round in 0..24 {
        let (net, size) = small_net(&mut random, NUMBERS[round % 4]);
        let all = lines(size);
        let line = &all[random.below(all.len())];
        let depths = [random.below(4), random.below(2)];
        let depths = if round % 2 == 0 {
            depths
        } else {
            [depths[1], depths[0]]
        };
        let [k, l] = depths;
        folder.put_net("net", &net, size);
        let arguments = format!("seam net -k {k} -l {l} --along {}", line.name);
        let printed = folder.printed(&arguments);
        let expected = compared(&net, size, depths, line, |_| true);
        assert_eq!(Some(&printed), expected.as_ref(), "{size:?} {arguments}");
        apart += within(&printed).iter().sum::<usize>();
    }
    assert!(apart > 0, "no two points are apart");
}

/// Six steps against none and against one.
#[test]
fn the_greatest_depths() {
    let folder = Folder::new("seam-deep");
    let mut random = Random::new(342);
    let net = nets::random_net(&mut random, CORNER, Numbers::Tiny);
    folder.put_net("net", &net, CORNER);
    let all = lines(CORNER);
    for (depths, line) in [([6, 0], &all[1]), ([1, 6], &all[3])] {
        let [k, l] = depths;
        let arguments = format!("seam net -k {k} -l {l} --along {}", line.name);
        let expected = compared(&net, CORNER, depths, line, |_| true);
        assert_eq!(Some(folder.printed(&arguments)), expected, "{arguments}");
    }
    let printed = folder.printed("seam net -k 6 -l 6 --along left");
    assert!(printed.starts_with("places 65537\nx 0 at 0 0 and 0 0\n"));
    assert!(printed.ends_with("\nallowance 0\n"));
}
