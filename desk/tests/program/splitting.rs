//! `split`, `merge`, `clean` and `through` against the oracle.

use crate::running::{accepted, small_net, Folder, CORNER};
use crate::texts::{numbers, text};
use ups_tests::hermite;
use ups_tests::multiresolution::{self, DETAIL_LIMIT};
use ups_tests::netfile;
use ups_tests::nets::{self, Numbers, NUMBERS};
use ups_tests::oracle::LIMIT;
use ups_tests::random::Random;
use ups_tests::record;
use ups_tests::refinement;

const ROOM: usize = usize::MAX;

#[test]
fn the_door_corner_refined() {
    let folder = Folder::new("split-corner");
    folder.put_corner("corner");
    folder.silent("refine corner -k 1 -o net");
    folder.silent("split net -o coarse -d details");
    let net = refinement::refined(&nets::door_corner(120), CORNER, 1);
    let split = multiresolution::split(&net, (3, 3), ROOM, ROOM).expect("accepted");
    assert_eq!(folder.get("coarse"), netfile::file(&split.coarse, CORNER));
    assert_eq!(numbers(&folder.get("details")), ((3, 3), split.details));
    folder.silent("merge coarse details -o merged");
    assert_eq!(folder.get("merged"), folder.get("net"));
    // The door corner itself has even sides.
    folder.refuses("split corner -o coarse2 -d details2", 10);
}

#[test]
fn splits_and_merges_of_random_nets() {
    let folder = Folder::new("split-random");
    let mut random = Random::new(371);
    let mut refusals = 0;
    for round in 0..40 {
        let size = nets::random_odd_size(&mut random);
        let kind = NUMBERS[round % 4];
        let spread = random.pick(&[3, 1000, LIMIT / 2]);
        let net = nets::near_net(&mut random, size, kind, spread);
        folder.put_net("net", &net, size);
        let split = match multiresolution::split(&net, size, ROOM, ROOM) {
            Ok(split) => split,
            Err(number) => {
                folder.refuses("split net -o other -d others", number);
                refusals += 1;
                continue;
            }
        };
        folder.silent("split net -d details -o coarse");
        let coarse = netfile::file(&split.coarse, multiresolution::coarse_size(size));
        assert!(folder.get("coarse") == coarse, "{size:?}");
        assert!(numbers(&folder.get("details")) == (size, split.details));
        folder.silent("merge coarse details -o merged");
        assert!(folder.get("merged") == folder.get("net"), "{size:?}");
    }
    assert!((1..35).contains(&refusals), "{refusals} refused");
}

#[test]
fn merges_with_random_details() {
    let folder = Folder::new("merge-random");
    let mut random = Random::new(372);
    let mut seen = [0; 17];
    for round in 0..40 {
        let (coarse, size) = small_net(&mut random, NUMBERS[round % 4]);
        let fine = refinement::refined_size(size, 1).expect("a size");
        let most = random.pick(&[5, 100_000, DETAIL_LIMIT, i32::MAX]);
        let mut details = nets::random_details(&mut random, fine, most);
        // Most numbers are refused where any may be, so that one of them alone is large.
        if round % 3 == 0 {
            details = vec![0; details.len()];
            let at = random.below(details.len());
            details[at] = random.pick(&[1, -1, DETAIL_LIMIT, -DETAIL_LIMIT - 1]);
        }
        folder.put_net("coarse", &coarse, size);
        folder.put("details", text(&details, fine));
        let merged = multiresolution::merge(&coarse, &details, size, ROOM);
        seen[merged.as_ref().err().copied().unwrap_or(0) as usize] += 1;
        match merged {
            Ok(merged) => {
                let printed = folder.bytes("merge coarse details -o -");
                assert!(printed == netfile::file(&merged, fine), "{size:?}");
            }
            Err(number) => folder.refuses("merge coarse details -o out", number),
        }
    }
    println!("merges by refusal: {seen:?}");
    assert!([0, 3, 11].iter().all(|&n| seen[n] > 1), "{seen:?}");
}

#[test]
fn cleaning() {
    let folder = Folder::new("clean-random");
    let mut random = Random::new(373);
    let mut set_to_zero = 0;
    for round in 0..30 {
        let size = nets::random_odd_size(&mut random);
        let most = [5, 100_000, DETAIL_LIMIT][round % 3];
        let details = nets::random_details(&mut random, size, most);
        let t = random.pick(&[0, 1, 2, 3, 50_000, 33_554_432]);
        let cleaned = multiresolution::clean(&details, size, t).expect("accepted");
        folder.put("details", text(&details, size));
        folder.silent(&format!("clean details -t {t} -o out"));
        let differ = details.iter().zip(&cleaned).filter(|(a, b)| a != b).count();
        set_to_zero += differ;
        assert!(numbers(&folder.get("out")) == (size, cleaned), "{t}");
        // In place.
        folder.silent(&format!("clean details -o details -t {t}"));
        assert_eq!(folder.get("details"), folder.get("out"));
    }
    assert!(set_to_zero > 100, "{set_to_zero} details set to 0");
}

#[test]
fn cleaning_refused() {
    let folder = Folder::new("clean-refused");
    let mut details = vec![0; record::details((3, 3))];
    folder.put("details", text(&details, (3, 3)));
    for t in ["33554433", "4294967296", "99999999999999999999999999999"] {
        folder.refuses(&format!("clean details -t {t} -o out"), 12);
    }
    for beyond in [DETAIL_LIMIT + 1, -DETAIL_LIMIT - 1, i32::MIN, i32::MAX] {
        details[40] = beyond;
        folder.put("details", text(&details, (3, 3)));
        folder.refuses("clean details -t 1 -o out", 3);
    }
    details[40] = -DETAIL_LIMIT;
    folder.put("details", text(&details, (3, 3)));
    let line = "clean - -t 33554432 -o -";
    let printed = accepted(folder.fed(line, &folder.get("details")), line);
    assert_eq!(numbers(&printed), ((3, 3), details));
}

/// The details cleaned between split and merge: less than t apart in each number.
#[test]
fn a_cleaned_net_is_near() {
    let folder = Folder::new("clean-merge");
    let mut random = Random::new(374);
    for t in [1, 40, 300] {
        let net = nets::near_net(&mut random, (7, 5), Numbers::Small, 200);
        folder.put_net("net", &net, (7, 5));
        folder.silent("split net -o coarse -d details");
        folder.silent(&format!("clean details -t {t} -o cleaned"));
        folder.silent("merge coarse cleaned -o out");
        let out = netfile::read(&folder.get("out"), ROOM, 2).expect("a net file");
        assert_eq!(out.size, (7, 5));
        let apart = |(a, b): (&i32, &i32)| a.abs_diff(*b);
        let most = out.numbers.iter().zip(&net).map(apart).max();
        let most = most.expect("numbers");
        assert!(most < t && (t == 1) == (most == 0), "{most} apart, {t}");
    }
}

/// p is a third of c1 + c2 + c3, t1 is c1 - p and t2 is c2 - p; they are whole for the door corner.
#[test]
fn the_door_corner_through_points() {
    let folder = Folder::new("through-corner");
    folder.put_corner("corner");
    let mut given = Vec::new();
    for vertex in nets::door_corner(120).chunks(9) {
        let coordinates = [0, 1, 2];
        let p = coordinates.map(|n| (vertex[n] + vertex[n + 3] + vertex[n + 6]) / 3);
        given.extend(p);
        given.extend(coordinates.map(|n| vertex[n] - p[n]));
        given.extend(coordinates.map(|n| vertex[n + 3] - p[n]));
    }
    folder.put("points", text(&given, CORNER));
    folder.silent("through points -o net");
    assert_eq!(folder.get("net"), folder.get("corner"));
}

#[test]
fn nets_through_given_points() {
    let folder = Folder::new("through-random");
    let mut random = Random::new(375);
    for round in 0..30 {
        let size = (2 + random.below(4), 2 + random.below(4));
        let given = nets::random_given(&mut random, size, NUMBERS[round % 4]);
        let net = hermite::from_points(&given, size, ROOM).expect("accepted");
        folder.put("points", text(&given, size));
        folder.silent("through points -o net");
        assert!(folder.get("net") == netfile::file(&net, size), "{size:?}");
        // The surface point at a vertex is the given one.
        let (i, j) = (random.below(size.0), random.below(size.1));
        let at = 9 * (j * size.0 + i);
        let [x, y, z] = [0, 1, 2].map(|n| given[at + n]);
        let line = format!("point net {} {}", 1024 * i, 1024 * j);
        assert_eq!(folder.printed(&line), format!("{x} {y} {z}\n"));
    }
}

#[test]
fn through_points_beyond_the_range() {
    let folder = Folder::new("through-refused");
    for (at, value) in [(0, i32::MAX), (35, i32::MIN), (13, LIMIT + 1)] {
        let mut given = [0; 36];
        given[at] = value;
        assert_eq!(hermite::from_points(&given, CORNER, ROOM), Err(16));
        folder.put("points", text(&given, CORNER));
        folder.refuses("through points -o out", 16);
    }
}

#[test]
fn refused_splits_and_merges() {
    let folder = Folder::new("split-refused");
    for size in [(4, 3), (3, 4), (2, 2)] {
        folder.put_net("net", &vec![0; record::numbers(size)], size);
        folder.refuses("split net -o out -d details", 10);
    }
    // A coarse number of 5/3 of the limit.
    let mut net = vec![0; record::numbers((3, 3))];
    net[0] = LIMIT;
    folder.put_net("net", &net, (3, 3));
    folder.refuses("split net -o out -d details", 11);
    let file = folder.get("net");
    folder.put("cut", &file[..20]);
    folder.refuses_file("split cut -o out -d details", "cut", 7);
    folder.put("zeros", text(&[0; record::details((3, 3))], (3, 3)));
    folder.refuses_file("merge cut zeros -o out", "cut", 7);
    folder.put("long", [&file[..], &[0]].concat());
    folder.refuses_file("merge long zeros -o out", "long", 9);
}
