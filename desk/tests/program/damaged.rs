//! Truncated and damaged net files and outlines: every run ends with a status of the page, an error
//! is one line, and no file is written with it. With `damaged_texts` and `damaged_arguments` these
//! are more than 10,000 runs.

use crate::damaged_arguments::ARGUMENTS;
use crate::damaged_texts::TEXTS;
use crate::running::{one_line, refusal, small_net, Folder, CORNER};
use crate::texts::text;
use std::ffi::OsString;
use std::process::Output;
use ups_tests::changes;
use ups_tests::multiresolution;
use ups_tests::netfile::{self, FileNet};
use ups_tests::nets::NUMBERS;
use ups_tests::oracle;
use ups_tests::outlines::{self, Door, Lengths};
use ups_tests::random::Random;
use ups_tests::shapes;

/// Runs of the tests here, of which two are on net files.
const NETS: usize = 2_000;
const OUTLINES: usize = 1_500;
const ALL: usize = 2 * NETS + OUTLINES + 2 * TEXTS + ARGUMENTS;
const _: () = assert!(ALL >= 10_000);

/// The status of a run and the text after `ups: `, which is empty where it was accepted. Where it
/// was not, nothing is printed and no file is left but those that were there.
pub fn ended(folder: &Folder, output: &Output, names: &[OsString], line: &str) -> (i32, String) {
    let status = output.status.code();
    let status = status.unwrap_or_else(|| panic!("{line}: {}", output.status));
    assert!((0..=2).contains(&status), "{line}: {output:?}");
    let errors = String::from_utf8(output.stderr.clone()).expect("text");
    if status == 0 {
        assert!(errors.is_empty(), "{line}: {errors}");
        for name in folder.names().iter().filter(|name| !names.contains(name)) {
            folder.remove(name);
        }
        return (0, errors);
    }
    assert!(output.stdout.is_empty(), "{line}");
    assert_eq!(folder.names(), names, "{line}");
    (status, one_line(&errors, line).to_owned())
}

const ROOM: usize = usize::MAX;

/// The commands that read a net file; the last two look at more than the file.
const READERS: [&str; 10] = [
    "check net",
    "list net",
    "point net 0 0",
    "walk net --along left --step 512",
    "refine net -k 2 -o out",
    "seam net -k 0 -l 1 --along row 1",
    "mesh net -k 1 -o out.obj",
    "picture net -k 0 -o out",
    "split net -o out -d out2",
    "merge net details -o out",
];

/// The refusal of a line on a damaged net file: that of the oracle's reader, or of the command.
fn due(file: &[u8], line: &str) -> (i32, String) {
    let FileNet { size, numbers } = match netfile::read(file, ROOM, 2) {
        Ok(net) => net,
        Err(number) => return (1, format!("net: {}", refusal(number))),
    };
    let split = || multiresolution::split_faults(&numbers, size, ROOM, ROOM);
    match line.split(' ').next() {
        Some("split") => match oracle::refusal(&split()) {
            0 => (0, String::new()),
            number => (1, refusal(number)),
        },
        Some("merge") if size != CORNER => (2, "details: line 1: ".to_owned()),
        _ => (0, String::new()),
    }
}

/// Runs a line on a net file, and answers whether it was accepted.
fn run(folder: &Folder, names: &[OsString], file: &[u8], line: &str) -> bool {
    folder.put("net", file);
    let (status, told) = ended(folder, &folder.ups(line), names, line);
    let (due_status, due_text) = due(file, line);
    assert_eq!(status, due_status, "{line}: {told} {file:x?}");
    match status {
        1 => assert_eq!(told, due_text, "{line}: {file:x?}"),
        _ => assert!(told.starts_with(&due_text), "{line}: {told}"),
    }
    status == 0
}

fn damaged_nets(name: &str, seed: u64) {
    let folder = Folder::new(name);
    folder.put("details", text(&[0; 81], (3, 3)));
    folder.put_corner("net");
    let names = folder.names();
    let mut random = Random::new(seed);
    let mut accepted = 0;
    for round in 0..NETS {
        let (net, size) = small_net(&mut random, NUMBERS[round % 4]);
        let mut file = netfile::file(&net, size);
        for _ in 0..1 + random.below(3) {
            changes::change(&mut random, &mut file);
        }
        let line = READERS[random.below(READERS.len())];
        accepted += usize::from(run(&folder, &names, &file, line));
    }
    println!("{accepted} of {NETS} accepted");
    assert!((50..NETS / 2).contains(&accepted));
}

#[test]
fn net_files() {
    damaged_nets("damaged-nets", 411);
}

#[test]
fn more_net_files() {
    damaged_nets("damaged-more-nets", 412);
}

/// The door corner's file at every length, and with each of its bytes changed.
#[test]
fn the_door_corner_cut_and_changed() {
    let folder = Folder::new("damaged-corner");
    folder.put("details", text(&[0; 81], (3, 3)));
    folder.put_corner("net");
    let names = folder.names();
    let file = folder.get("net");
    for len in 0..file.len() {
        let line = READERS[len % READERS.len()];
        assert!(!run(&folder, &names, &file[..len], line));
        let mut changed = file.clone();
        changed[len] ^= 0x81;
        run(&folder, &names, &changed, line);
    }
}

/// Lines that take an outline.
const OUTLINED: [&str; 8] = [
    "check net",
    "list net",
    "refine net -k 1 -o out --fine-outline out2",
    "mesh net -k 0 -o out.ply",
    "picture net -k 1 -o out --net",
    "walk net --along top -k 1",
    "seam net -k 1 -l 0 --along left",
    "point net 512 100",
];

/// The refusal of a line of these on the outline, but for 15 of a walk and a seam.
fn outline_refusal(net: &[i32], door: &Door, line: &str) -> u32 {
    let lengths = Lengths {
        out: ROOM,
        scratch: ROOM,
        fine: ROOM,
        search: ROOM,
    };
    let faults = match line.starts_with("point") {
        true => outlines::point_faults(net, door, (512, 100), 3),
        false => outlines::refine_faults(net, door, 1, lengths),
    };
    oracle::refusal(&faults)
}

#[test]
fn outline_files() {
    let folder = Folder::new("damaged-outlines");
    let mut random = Random::new(413);
    folder.put_corner("net");
    folder.put("outline", [1, 1]);
    let names = folder.names();
    let mut seen = [0; 17];
    for round in 0..OUTLINES {
        let (net, size) = small_net(&mut random, NUMBERS[round % 4]);
        let most = 1 + random.below(30);
        let mut outline = shapes::grown(&mut random, size, most);
        for _ in 0..1 + random.below(3) {
            changes::change(&mut random, &mut outline);
        }
        folder.put_net("net", &net, size);
        folder.put("outline", &outline);
        let line = format!("{} --outline outline", random.pick(&OUTLINED));
        let (status, told) = ended(&folder, &folder.ups(&line), &names, &line);
        let number = outline_refusal(&net, &Door::new(&outline, size), &line);
        seen[number as usize] += 1;
        let due = match number {
            0 => String::new(),
            number => refusal(number),
        };
        // The whole line may be off the door as well.
        let along = line.contains("--along") && [0, 14].contains(&number);
        let off = along && told == refusal(15);
        assert!(told == due || off, "{line}: {told}, {outline:?}");
        assert_eq!(status, i32::from(!told.is_empty()));
    }
    println!("outlines by refusal: {seen:?}");
    assert!([0, 2, 13, 14].iter().all(|&n| seen[n] > 20), "{seen:?}");
}
