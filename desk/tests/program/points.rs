//! `point` and `walk` against the oracle.

use crate::lines::{lines, Line};
use crate::running::{accepted, failed, millimetres, small_net, Folder, Size, CORNER};
use ups_tests::netfile;
use ups_tests::nets::{self, Numbers, NUMBERS};
use ups_tests::random::Random;
use ups_tests::record;
use ups_tests::refinement;

/// What `walk` prints along a line of the net after k steps.
fn walked(net: &[i32], size: Size, k: usize, line: &Line, step: usize) -> String {
    let refined = refinement::refined(net, size, k);
    let fine = refinement::refined_size(size, k).expect("a size");
    let mut text = String::new();
    for (p, q) in line.places(size, k, step) {
        let [x, y, z] = refinement::point_of(&refined, fine, (p, q));
        text += &format!("{p} {q} {x} {y} {z}\n");
    }
    text
}

fn units([x, y, z]: [i32; 3]) -> String {
    format!("{x} {y} {z}\n")
}

fn in_millimetres(point: [i32; 3]) -> String {
    format!("{}\n", point.map(millimetres).join(" "))
}

#[test]
fn points_of_the_door_corner() {
    let folder = Folder::new("point-corner");
    folder.put_corner("corner");
    let net = nets::door_corner(120);
    for place in [
        (0, 0),
        (1024, 0),
        (0, 1024),
        (1024, 1024),
        (256, 256),
        (1, 1023),
    ] {
        let (p, q) = place;
        let point = refinement::point_of(&net, CORNER, place);
        assert_eq!(
            folder.printed(&format!("point corner {p} {q}")),
            units(point)
        );
        let line = format!("point --mm corner {p} {q}");
        assert_eq!(folder.printed(&line), in_millimetres(point));
    }
    let input = netfile::file(&net, CORNER);
    let printed = accepted(folder.fed("point - 0 512", &input), "point -");
    assert_eq!(printed, b"0 600 30\n");
}

#[test]
fn points_of_random_nets_at_every_depth() {
    let folder = Folder::new("point-random");
    let mut random = Random::new(321);
    for round in 0..16 {
        let (net, size) = small_net(&mut random, NUMBERS[round % 4]);
        folder.put_net("net", &net, size);
        for k in 0..4 {
            let refined = refinement::refined(&net, size, k);
            let fine = refinement::refined_size(size, k).expect("a size");
            let places = nets::places(&mut random, fine);
            for &(p, q) in places.iter().step_by(17) {
                let point = refinement::point_of(&refined, fine, (p, q));
                let line = format!("point net {p} {q} -k {k}");
                assert_eq!(folder.printed(&line), units(point), "{size:?} {line}");
                let line = format!("point net {p} -k {k} {q} --mm");
                assert_eq!(folder.printed(&line), in_millimetres(point), "{line}");
            }
        }
    }
}

/// After rounding in each of 6 steps the points are others than those of the net itself.
#[test]
fn a_point_after_six_steps() {
    let folder = Folder::new("point-deep");
    let mut random = Random::new(322);
    let net = nets::random_net(&mut random, CORNER, Numbers::Small);
    folder.put_net("net", &net, CORNER);
    let refined = refinement::refined(&net, CORNER, 6);
    let mut differ = 0;
    for _ in 0..20 {
        let (p, q) = (random.below(65_537), random.below(65_537));
        let point = refinement::point_of(&refined, (65, 65), (p, q));
        let line = format!("point net {p} {q} -k 6");
        assert_eq!(folder.printed(&line), units(point));
        let start = refinement::point_of(&net, CORNER, (p / 64, q / 64));
        differ += usize::from(point != start);
    }
    assert!(differ > 0, "the depths are not told apart");
}

#[test]
fn refused_places_and_depths() {
    let folder = Folder::new("point-refused");
    folder.put_net("net", &[0; record::numbers((3, 2))], (3, 2));
    let great = "340282366920938463463374607431768211456";
    for (line, number) in [
        ("point net 2049 0", 6),
        ("point net 0 1025", 6),
        ("point net 2049 1025 -k 0", 6),
        ("point net 4097 0 -k 1", 6),
        ("point net 0 2049 -k 1", 6),
        ("point net 0 0 -k 7", 4),
        ("point net 9999999 0 -k 7", 4),
        (&format!("point net {great} 0"), 6),
        (&format!("point net 0 {great} -k 2"), 6),
        (&format!("point net 0 0 -k {great}"), 4),
        ("walk net --along left -k 7", 4),
        (&format!("walk net --along top -k {great}"), 4),
    ] {
        folder.refuses(line, number);
    }
    assert_eq!(folder.printed("point net 2048 1024"), "0 0 0\n");
    assert_eq!(folder.printed("point net 4096 2048 -k 1"), "0 0 0\n");
}

#[test]
fn walks_of_the_door_corner() {
    let folder = Folder::new("walk-corner");
    folder.put_corner("corner");
    let net = nets::door_corner(120);
    for line in lines(CORNER) {
        for k in 0..3 {
            for step in [1024, 512, 1000, 341] {
                let name = &line.name;
                let printed =
                    folder.printed(&format!("walk corner --along {name} --step {step} -k {k}"));
                let expected = walked(&net, CORNER, k, &line, step);
                assert_eq!(printed, expected, "{name} {k} {step}");
            }
        }
    }
    let printed = folder.printed("walk corner --along bottom");
    assert_eq!(printed, "0 0 0 0 40\n1024 0 1200 0 0\n");
}

#[test]
fn walks_of_random_nets() {
    let folder = Folder::new("walk-random");
    let mut random = Random::new(323);
    for round in 0..12 {
        let (net, size) = small_net(&mut random, NUMBERS[round % 4]);
        folder.put_net("net", &net, size);
        for line in lines(size) {
            let k = random.below(3);
            let step = random.pick(&[1024, 512, 700, 2048, 5000, 3]);
            let step = if k > 0 || step > 3 {
                step.max(128)
            } else {
                step
            };
            let name = &line.name;
            let printed = folder.printed(&format!("walk --along {name} net -k {k} --step {step}"));
            let expected = walked(&net, size, k, &line, step);
            assert!(printed == expected, "{size:?} {name} {k} {step}");
        }
    }
}

/// Each place where the step is 1, and the first alone where the step is longer than the line.
#[test]
fn the_shortest_and_the_longest_steps() {
    let folder = Folder::new("walk-steps");
    let mut random = Random::new(324);
    let net = nets::random_net(&mut random, (2, 3), Numbers::Mixed);
    folder.put_net("net", &net, (2, 3));
    let right = &lines((2, 3))[3];
    let printed = folder.printed("walk net --along right --step 1");
    assert_eq!(printed.lines().count(), 2049);
    assert!(printed == walked(&net, (2, 3), 0, right, 1));
    for step in ["2049", "18446744073709551615", "99999999999999999999999"] {
        let printed = folder.printed(&format!("walk net --along right --step {step}"));
        assert_eq!(printed, walked(&net, (2, 3), 0, right, 4096), "{step}");
    }
}

/// A row or a column by its number is one word or two.
#[test]
fn lines_of_one_word() {
    let folder = Folder::new("walk-words");
    let mut random = Random::new(325);
    let net = nets::random_net(&mut random, (3, 4), Numbers::Large);
    folder.put_net("net", &net, (3, 4));
    for line in ["row 0", "row 3", "column 0", "column 2"] {
        let due = folder.printed(&format!("walk net --along {line}"));
        let output = folder.run(&["walk", "net", "--along", line]);
        assert_eq!(accepted(output, line), due.as_bytes());
        let option = format!("--along={line}");
        let output = folder.run(&["walk", &option, "net"]);
        assert_eq!(accepted(output, line), due.as_bytes());
        let due = folder.printed(&format!("seam net -k 0 -l 1 --along {line}"));
        let output = folder.run(&["seam", "net", "-k", "0", "-l", "1", "--along", line]);
        assert_eq!(accepted(output, line), due.as_bytes());
    }
    for line in ["row", "row x", "row 1 1", "row -1", "rows 1", ""] {
        let output = folder.run(&["walk", "net", "--along", line]);
        failed(&output, "", line);
    }
}

#[test]
fn no_such_row_or_column() {
    let folder = Folder::new("walk-lines");
    folder.put_net("net", &[0; record::numbers((3, 2))], (3, 2));
    for line in ["row 2", "column 3", "row 99999999999999999999999999"] {
        folder.refuses(&format!("walk net --along {line}"), 6);
        folder.refuses(&format!("walk net --along {line} -k 2"), 6);
        folder.refuses(&format!("seam net -k 1 -l 2 --along {line}"), 6);
    }
}
