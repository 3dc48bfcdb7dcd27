//! `check`: the sizes, the ranges and the table, against the oracle.

use crate::running::{millimetres, small_net, Folder, Size, CORNER};
use ups_tests::nets::{self, NUMBERS};
use ups_tests::outlines;
use ups_tests::random::Random;
use ups_tests::record;
use ups_tests::refinement;
use ups_tests::shapes;

/// The least and the greatest of a coordinate's control values.
fn range(net: &[i32], coordinate: usize) -> (i32, i32) {
    let values = net.iter().skip(coordinate).step_by(3);
    let least = values.clone().min().expect("a number");
    (*least, *values.max().expect("a number"))
}

/// The lines before the table.
fn head(net: &[i32], (w, h): Size) -> String {
    let numbers = record::numbers((w, h));
    let bytes = 4 * (numbers + 3);
    let mut text = format!("net {w} by {h}, {numbers} numbers, {bytes} bytes\n");
    for (name, coordinate) in [("x", 0), ("y", 1), ("z", 2)] {
        let (least, greatest) = range(net, coordinate);
        let (low, high) = (millimetres(least), millimetres(greatest));
        text += &format!("{name} from {least} to {greatest}, {low} to {high} mm\n");
    }
    text
}

/// The table, with the columns of an outline where there is one.
fn table(size: Size, outlined: bool) -> String {
    let more = if outlined { " fine search" } else { "" };
    let mut text = format!("k w h out scratch{more}\n");
    for k in 0..7 {
        let (w, h) = refinement::refined_size(size, k).expect("a size");
        if w > 1025 || h > 1025 {
            break;
        }
        let out = refinement::refined_len(size, k).expect("a length");
        let scratch = refinement::scratch_len(size, k).expect("a length");
        text += &format!("{k} {w} {h} {out} {scratch}");
        if outlined {
            let fine = outlines::fine_triangles(size, k).expect("a count");
            let search = outlines::triangles(size).expect("a count");
            text += &format!(" {fine} {search}");
        }
        text += "\n";
    }
    text
}

fn checked(net: &[i32], size: Size) -> String {
    head(net, size) + &table(size, false)
}

fn checked_with(net: &[i32], size: Size, outline: &[u8]) -> String {
    let count = outlines::triangles(size).expect("a count");
    let present = outline[..count].iter().filter(|&&byte| byte == 1).count();
    let line = format!("outline of {count} triangles, {present} present\n");
    head(net, size) + &line + &table(size, true)
}

#[test]
fn the_door_corner() {
    let folder = Folder::new("check-corner");
    folder.put_corner("corner");
    let net = nets::door_corner(120);
    let printed = folder.printed("check corner");
    assert_eq!(printed, checked(&net, CORNER));
    assert_eq!(printed.lines().count(), 12);
    let outline = [1, 0];
    folder.put("outline", outline);
    let printed = folder.printed("check corner --outline outline");
    assert_eq!(printed, checked_with(&net, CORNER, &outline));
    assert!(printed.contains("\noutline of 2 triangles, 1 present\n"));
    assert!(printed.contains("\n1 3 3 81 0 8 2\n"));
}

#[test]
fn random_nets_with_outlines_and_without() {
    let folder = Folder::new("check-random");
    let mut random = Random::new(301);
    for round in 0..40 {
        let (net, size) = small_net(&mut random, NUMBERS[round % 4]);
        folder.put_net("net", &net, size);
        assert_eq!(folder.printed("check net"), checked(&net, size));
        let most = 1 + random.below(20);
        let outline = shapes::grown(&mut random, size, most);
        folder.put("outline", &outline);
        let printed = folder.printed("check --outline outline net");
        assert_eq!(printed, checked_with(&net, size, &outline));
    }
}

/// Sizes at which the greatest depth changes.
#[test]
fn only_the_depths_that_are_accepted() {
    let folder = Folder::new("check-depths");
    for (size, depths) in [
        ((17, 17), 7),
        ((18, 2), 6),
        ((2, 33), 6),
        ((2, 34), 5),
        ((257, 3), 3),
        ((258, 2), 2),
        ((513, 2), 2),
        ((2, 514), 1),
        ((1025, 2), 1),
    ] {
        let net = vec![-7; record::numbers(size)];
        folder.put_net("net", &net, size);
        let printed = folder.printed("check net");
        assert_eq!(printed, checked(&net, size));
        assert_eq!(printed.lines().count(), 5 + depths, "{size:?}");
    }
}

#[test]
fn refused_outlines() {
    let folder = Folder::new("check-outlines");
    folder.put_net("net", &[0; record::numbers((3, 2))], (3, 2));
    for (bytes, number) in [
        (vec![], 2),
        (vec![1, 1, 1], 2),
        (vec![1, 2, 1], 2),
        (vec![1, 2, 1, 1], 13),
        (vec![1, 0, 1, 255], 13),
        (vec![1, 0, 1, 0], 14),
        (vec![0, 0, 0, 0], 14),
    ] {
        folder.put("outline", bytes);
        folder.refuses("check net --outline outline", number);
    }
    // What follows the last triangle is not read.
    folder.put("outline", [0, 1, 1, 0, 7, 255]);
    let printed = folder.printed("check net --outline outline");
    assert!(printed.contains("\noutline of 4 triangles, 2 present\n"));
}

/// The test's own decimals.
#[test]
fn decimals_of_millimetres() {
    for (units, text) in [
        (0, "0"),
        (1, "0.0009765625"),
        (-1, "-0.0009765625"),
        (512, "0.5"),
        (-1024, "-1"),
        (1800, "1.7578125"),
        (16_777_216, "16384"),
        (-16_777_215, "-16383.9990234375"),
    ] {
        assert_eq!(millimetres(units), text);
    }
}
