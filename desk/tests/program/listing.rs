//! `list`: the listing program's text byte for byte, and the oracle's.

use crate::running::{accepted, fed, file_refused, refused, small_net, Folder, Size, CORNER};
use std::env;
use std::path::{Path, PathBuf};
use std::process::{Command, Stdio};
use ups_tests::changes;
use ups_tests::netfile::{self, FileNet};
use ups_tests::nets::{self, Numbers, NUMBERS};
use ups_tests::oracle;
use ups_tests::outlines::Door;
use ups_tests::random::Random;
use ups_tests::record;
use ups_tests::refinement;
use ups_tests::shapes;

/// What the listing program prints for this input.
fn listing(input: &[u8]) -> String {
    let built = Path::new(env!("CARGO_MANIFEST_DIR")).join("../target/bin/listing");
    let program = env::var_os("LISTING_PROGRAM").map_or(built, PathBuf::from);
    let mut command = Command::new(program);
    command.stdout(Stdio::piped()).stderr(Stdio::piped());
    let printed = accepted(fed(command, input), "listing");
    String::from_utf8(printed).expect("text")
}

/// The net after k steps, of the vertices that are on the door.
fn text(net: &[i32], size: Size, k: usize, on_door: impl Fn(Size) -> bool) -> String {
    let refined = refinement::refined(net, size, k);
    let (w, h) = refinement::refined_size(size, k).expect("a size");
    let mut text = format!("net {w} {h}\n");
    for j in 0..h {
        for i in (0..w).filter(|&i| on_door((i, j))) {
            let [x, y, z] = refinement::point_of(&refined, (w, h), (1024 * i, 1024 * j));
            text += &format!("{i} {j} {x} {y} {z}\n");
        }
    }
    text
}

/// The refusal of reading the file, or of refining it once; else the text.
enum Expected {
    File(u32),
    Depth(u32),
    Text(String),
}

fn expected(file: &[u8]) -> Expected {
    let FileNet { size, numbers } = match netfile::read(file, usize::MAX, 2) {
        Ok(net) => net,
        Err(number) => return Expected::File(number),
    };
    let faults = refinement::refine_faults(&numbers, size, 1, usize::MAX, usize::MAX);
    match oracle::accepted(&faults) {
        Ok(()) => Expected::Text(text(&numbers, size, 1, |_| true)),
        Err(number) => Expected::Depth(number),
    }
}

/// The numbers that the listing program's net buffer and its output buffer hold.
const BUFFER: usize = 16_384;

/// Whether the listing program's buffers are too short for the net that the file's first words
/// state, or for its refinement.
fn beyond_the_buffers(file: &[u8]) -> bool {
    let side = |n: usize| -> Option<usize> {
        let word = file.get(4 * n..4 * n + 4)?;
        let [_, b, c, d] = word.try_into().expect("four bytes");
        Some(u32::from_be_bytes([0, b, c, d]) as usize)
    };
    let sides = side(0).zip(side(1));
    sides.is_some_and(|(w, h)| 9 * (2 * w).saturating_sub(1) * (2 * h).saturating_sub(1) > BUFFER)
}

/// Runs `list` and the listing program on a file; answers the refusal, 0 where there is none. The
/// listing program refuses by 5 where its own buffers are too short, and this one never does.
fn same(folder: &Folder, file: &[u8]) -> u32 {
    folder.put("net", file);
    let output = folder.ups("list net");
    let listing = listing(file);
    let short = listing == "refused 5\n" && beyond_the_buffers(file);
    match expected(file) {
        Expected::File(number) => {
            file_refused(&output, "net", number, "list net");
            let told = format!("refused {number}\n");
            assert!(listing == told || short, "{listing}");
            number
        }
        Expected::Depth(number) => {
            refused(&output, number, "list net");
            let told = format!("refused {number}\n");
            assert!(listing == told || short, "{listing}");
            number
        }
        Expected::Text(text) => {
            let printed = accepted(output, "list net");
            assert!(printed == text.as_bytes(), "the oracle prints\n{text}");
            assert!(listing == text || short, "{listing}");
            0
        }
    }
}

#[test]
fn the_door_corner() {
    let folder = Folder::new("list-corner");
    let file = netfile::file(&nets::door_corner(120), CORNER);
    assert_eq!(same(&folder, &file), 0);
    let printed = folder.printed("list net");
    assert!(printed.starts_with("net 3 3\n0 0 0 0 40\n1 0 600 0 40\n"));
    assert_eq!(folder.printed("list net -k 1"), printed);
    let from_input = accepted(folder.fed("list -", &file), "list -");
    assert_eq!(from_input, printed.as_bytes());
}

#[test]
fn random_and_damaged_files_as_the_listing_program_has_them() {
    let folder = Folder::new("list-random");
    let mut random = Random::new(311);
    let mut seen = [0; 10];
    for round in 0..300 {
        let (net, size) = small_net(&mut random, NUMBERS[round % 4]);
        let mut file = netfile::file(&net, size);
        for _ in 0..random.below(3) {
            changes::change(&mut random, &mut file);
        }
        seen[same(&folder, &file) as usize] += 1;
    }
    println!("files by refusal: {seen:?}");
    assert!([0, 1, 3, 7, 8, 9].iter().all(|&n| seen[n] > 0), "{seen:?}");
}

/// Above the listing program's buffers, at the greatest side that one step takes, and above it.
#[test]
fn no_limit_of_size() {
    let folder = Folder::new("list-sizes");
    for (size, number) in [
        ((21, 22), 0),
        ((22, 22), 0),
        ((2, 513), 0),
        ((514, 2), 4),
        ((3, 1025), 4),
    ] {
        let mut random = Random::new(312);
        let net = nets::random_net(&mut random, size, Numbers::Large);
        assert_eq!(same(&folder, &netfile::file(&net, size)), number);
    }
}

#[test]
fn every_depth() {
    let folder = Folder::new("list-depths");
    let mut random = Random::new(313);
    for (size, most) in [((2, 2), 4), ((3, 2), 3), ((4, 5), 2)] {
        for numbers in [Numbers::Tiny, Numbers::Mixed] {
            let net = nets::random_net(&mut random, size, numbers);
            folder.put_net("net", &net, size);
            for k in 0..=most {
                let printed = folder.printed(&format!("list -k {k} net"));
                assert!(printed == text(&net, size, k, |_| true), "{size:?} {k}");
            }
        }
    }
    for k in ["7", "8", "4294967296", "99999999999999999999999999"] {
        folder.refuses(&format!("list net -k {k}"), 4);
    }
    folder.put_net("net", &[0; record::numbers((18, 2))], (18, 2));
    assert_eq!(
        folder.printed("list net -k 5").lines().count(),
        1 + 545 * 33
    );
    folder.refuses("list net -k 6", 4);
}

#[test]
fn vertices_off_the_door_are_left_out() {
    let folder = Folder::new("list-outlines");
    let mut random = Random::new(314);
    let mut left_out = 0;
    for round in 0..24 {
        let (net, size) = small_net(&mut random, NUMBERS[round % 4]);
        let most = 1 + random.below(12);
        let outline = shapes::grown(&mut random, size, most);
        let door = Door::new(&outline, size);
        folder.put_net("net", &net, size);
        // Bytes after the last triangle are not read.
        folder.put("outline", [&outline[..], &[9, 9]].concat());
        for k in 0..3 {
            let on_door = |place| door.holds(place, 1 << k);
            let line = format!("list net --outline outline -k {k}");
            let printed = folder.printed(&line);
            assert!(printed == text(&net, size, k, on_door), "{size:?} {k}");
            let (w, h) = refinement::refined_size(size, k).expect("a size");
            left_out += 1 + w * h - printed.lines().count();
        }
    }
    assert!(left_out > 100, "the doors leave out {left_out} vertices");
}
