//! `refine` against the oracle: the net file and the outline that it writes.

use crate::running::{accepted, plate, small_net, Folder, Size, CORNER};
use ups_tests::netfile;
use ups_tests::nets::{self, Numbers, NUMBERS};
use ups_tests::oracle::Net;
use ups_tests::outlines::Door;
use ups_tests::random::Random;
use ups_tests::rational::Rational;
use ups_tests::record;
use ups_tests::refinement;
use ups_tests::seam::RefinedPlace;
use ups_tests::shapes;

/// The file of the net after k steps.
fn refined_file(net: &[i32], size: Size, k: usize) -> Vec<u8> {
    let fine = refinement::refined_size(size, k).expect("a size");
    netfile::file(&refinement::refined(net, size, k), fine)
}

#[test]
fn the_door_corner_at_every_depth() {
    let folder = Folder::new("refine-corner");
    folder.put_corner("corner");
    let net = nets::door_corner(120);
    for k in 0..6 {
        folder.silent(&format!("refine corner -k {k} -o out"));
        assert!(folder.get("out") == refined_file(&net, CORNER, k), "{k}");
        let printed = folder.bytes(&format!("refine corner -o - -k {k}"));
        assert!(printed == folder.get("out"));
    }
    assert_eq!(folder.names(), ["corner", "out"]);
    let line = "refine - -k 2 -o -";
    let output = folder.fed(line, &folder.get("corner"));
    assert!(accepted(output, line) == refined_file(&net, CORNER, 2));
    // A net file may be replaced by its own refinement.
    folder.silent("refine corner -k 1 -o corner");
    assert!(folder.get("corner") == refined_file(&net, CORNER, 1));
}

#[test]
fn random_nets() {
    let folder = Folder::new("refine-random");
    let mut random = Random::new(331);
    for round in 0..24 {
        let (net, size) = small_net(&mut random, NUMBERS[round % 4]);
        let k = random.below(4);
        folder.put_net("net", &net, size);
        folder.silent(&format!("refine -o out net -k {k}"));
        assert!(
            folder.get("out") == refined_file(&net, size, k),
            "{size:?} {k}"
        );
    }
}

#[test]
fn refined_outlines() {
    let folder = Folder::new("refine-outlines");
    let mut random = Random::new(332);
    for round in 0..24 {
        let (net, size) = small_net(&mut random, NUMBERS[round % 4]);
        let most = 1 + random.below(20);
        let outline = shapes::grown(&mut random, size, most);
        let k = random.below(4);
        folder.put_net("net", &net, size);
        folder.put("outline", [&outline[..], b"more"].concat());
        let line = format!("refine net -k {k} -o out --outline outline --fine-outline fine");
        folder.silent(&line);
        assert!(
            folder.get("out") == refined_file(&net, size, k),
            "{size:?} {k}"
        );
        let fine = Door::new(&outline, size).refined(k);
        assert_eq!(folder.get("fine"), fine, "{size:?} {k}");
        let line = format!("refine net -k {k} -o out --outline outline --fine-outline -");
        assert_eq!(folder.bytes(&line), fine);
        // Without the fine outline the outline is still checked.
        folder.silent(&format!("refine net -k {k} -o other --outline outline"));
        assert!(folder.get("other") == folder.get("out"));
    }
    assert_eq!(folder.names(), ["fine", "net", "other", "out", "outline"]);
}

/// The greatest net from the smallest that gives it: its size, and its points against the exact
/// spline of the net, within the promise to the cutter.
#[test]
fn six_steps_to_1025_by_1025() {
    let folder = Folder::new("refine-deep");
    let mut random = Random::new(333);
    let (size, k) = ((17, 17), 6);
    let net = plate(&mut random, size);
    folder.put_net("net", &net, size);
    folder.silent("refine net -k 6 -o out");
    let file = netfile::read(&folder.get("out"), usize::MAX, 2).expect("a net file");
    folder.remove("out");
    assert_eq!(file.size, (1025, 1025));
    let start = Net::new(&net, 17, 17);
    let allowance = Rational::new(k as i128 + 1, 2);
    for _ in 0..200 {
        let place = (random.below(1_048_577), random.below(1_048_577));
        let at = RefinedPlace { k, place };
        let exact = at.exact(&start);
        for (x, exact) in at.point_of(&file.numbers, size).into_iter().zip(exact) {
            let apart = Rational::from(x) + -exact;
            let near = apart <= allowance && -apart <= allowance;
            assert!(near, "{place:?}: {x} and {exact:?}");
        }
    }
}

#[test]
fn refused_depths_and_files() {
    let folder = Folder::new("refine-refused");
    folder.put_net("net", &[0; record::numbers((3, 18))], (3, 18));
    for k in ["6", "7", "100", "18446744073709551616"] {
        folder.refuses(&format!("refine net -k {k} -o out"), 4);
        folder.refuses(&format!("refine net -k {k} -o -"), 4);
        folder.refuses(&format!("mesh net -k {k} -o out.stl"), 4);
        folder.refuses(&format!("picture net -k {k} -o out"), 4);
        folder.refuses(&format!("seam net -k {k} -l 1 --along left"), 4);
        folder.refuses(&format!("seam net -k 1 -l {k} --along left"), 4);
    }
    folder.silent("refine net -k 5 -o out");
    assert_eq!(folder.get("out").len(), 4 * (9 * 65 * 545 + 3));
    folder.put("short", &folder.get("net")[..99]);
    folder.refuses_file("refine short -k 7 -o other", "short", 7);
    folder.put("refine", b"\x10\x00\x00\x01");
    folder.refuses_file("refine -k 1 refine -o other", "refine", 1);
}

/// Number by number where the numbers are at the ends of the range.
#[test]
fn extreme_numbers() {
    let folder = Folder::new("refine-extreme");
    let mut random = Random::new(334);
    for numbers in [Numbers::Extreme, Numbers::Tiny] {
        let net = nets::random_net(&mut random, (2, 2), numbers);
        folder.put_net("net", &net, CORNER);
        folder.silent("refine net -k 5 -o out");
        assert!(folder.get("out") == refined_file(&net, CORNER, 5));
    }
}
