//! The listing program on files of all kinds, against text made by the oracle.
//!
//! The program is the one in `LISTING_PROGRAM`, or else `target/bin/listing`, where the gate and
//! `make list` put what `rt` built.

use std::env;
use std::fs::{self, File};
use std::io::{ErrorKind, Seek, Write};
use std::path::{Path, PathBuf};
use std::process::{Command, Output, Stdio};
use std::thread;
use std::time::Duration;
use ups_tests::netfile::{self, FileNet, END, HEIGHT, WIDTH};
use ups_tests::nets::{self, Numbers, NUMBERS};
use ups_tests::oracle::{self, LIMIT};
use ups_tests::random::Random;
use ups_tests::record::{self, Control};
use ups_tests::refinement;

type Size = (usize, usize);

/// The most bytes that the program takes.
const BYTES: usize = 65_536;
/// The numbers that its net buffer and its output buffer hold.
const BUFFER: usize = 16_384;
const PAUSE: Duration = Duration::from_millis(10);

fn program() -> PathBuf {
    let built = Path::new(env!("CARGO_MANIFEST_DIR")).join("../target/bin/listing");
    env::var_os("LISTING_PROGRAM").map_or(built, PathBuf::from)
}

fn command() -> Command {
    let mut command = Command::new(program());
    command.stdout(Stdio::piped()).stderr(Stdio::piped());
    command
}

/// What the program prints; it must end well and say nothing else.
fn printed(output: Output) -> String {
    let errors = String::from_utf8_lossy(&output.stderr);
    assert!(errors.is_empty(), "standard error: {errors}");
    assert_eq!(output.status.code(), Some(0), "{}", output.status);
    String::from_utf8(output.stdout).expect("text")
}

/// Runs the program with the input in a pipe, written in pieces. The pause between them is for
/// the program to read each by itself; what it must print does not depend on it.
fn run_in_pieces(pieces: &[&[u8]]) -> String {
    let child = command().stdin(Stdio::piped()).spawn();
    let mut child = child.unwrap_or_else(|error| panic!("{}: {error}", program().display()));
    let mut pipe = child.stdin.take().expect("a pipe");
    // In a thread of its own, since the program may print before it has read all.
    thread::scope(|scope| {
        scope.spawn(move || {
            for (n, piece) in pieces.iter().enumerate() {
                if n > 0 {
                    thread::sleep(PAUSE);
                }
                match pipe.write_all(piece) {
                    // The program may end before it has read all.
                    Err(error) if error.kind() == ErrorKind::BrokenPipe => break,
                    written => written.expect("written"),
                }
            }
        });
        printed(child.wait_with_output().expect("output"))
    })
}

fn run(input: &[u8]) -> String {
    run_in_pieces(&[input])
}

/// The listing of a net, or the first refusal of refining it once.
fn listed(net: &FileNet) -> Result<String, u32> {
    let faults = refinement::refine_faults(&net.numbers, net.size, 1, BUFFER, 0);
    oracle::accepted(&faults)?;
    let refined = refinement::refined(&net.numbers, net.size, 1);
    let (w, h) = refinement::refined_size(net.size, 1).expect("a size");
    let mut text = format!("net {w} {h}\n");
    for j in 0..h {
        for i in 0..w {
            let [x, y, z] = refinement::point_of(&refined, (w, h), (1024 * i, 1024 * j));
            text += &format!("{i} {j} {x} {y} {z}\n");
        }
    }
    Ok(text)
}

/// What the program must print for this input.
fn expected(input: &[u8]) -> String {
    let taken = &input[..input.len().min(BYTES)];
    let text = netfile::read(taken, BUFFER, 2).and_then(|net| listed(&net));
    text.unwrap_or_else(|number| format!("refused {number}\n"))
}

fn check(input: &[u8]) -> String {
    let text = run(input);
    assert!(
        text == expected(input),
        "{} bytes: printed\n{text}expected\n{}",
        input.len(),
        expected(input)
    );
    text
}

fn expect_refused(input: &[u8], number: u32) {
    assert_eq!(check(input), format!("refused {number}\n"));
}

/// A listing, with the given size in its first line and a line for each vertex.
fn expect_listed(input: &[u8], (w, h): Size) {
    let text = check(input);
    assert!(text.starts_with(&format!("net {w} {h}\n0 0 ")), "{text}");
    assert_eq!(text.lines().count(), 1 + w * h);
}

fn random_file(random: &mut Random, size: Size, numbers: Numbers) -> Vec<u8> {
    netfile::file(&nets::random_net(random, size, numbers), size)
}

/// A file whose numbers do not matter.
fn zero_file(size: Size) -> Vec<u8> {
    netfile::file(&vec![0; record::numbers(size)], size)
}

fn door_corner_file() -> Vec<u8> {
    netfile::file(&nets::door_corner(120), (2, 2))
}

/// The file with one word changed.
fn with_word(file: &[u8], position: usize, word: u32) -> Vec<u8> {
    let mut file = file.to_vec();
    file[4 * position..4 * position + 4].copy_from_slice(&word.to_be_bytes());
    file
}

#[test]
fn the_door_corner_as_the_specification_lists_it() {
    let text = "\
net 3 3
0 0 0 0 40
1 0 600 0 40
2 0 1200 0 0
0 1 0 600 30
1 1 600 600 0
2 1 1200 600 0
0 2 0 1200 0
1 2 600 1200 0
2 2 1200 1200 0
";
    assert_eq!(check(&door_corner_file()), text);
}

#[test]
fn the_door_corner_turned_over() {
    let file = netfile::file(&nets::door_corner(-120), (2, 2));
    let text = check(&file);
    assert!(text.starts_with("net 3 3\n0 0 0 0 -40\n1 0 600 0 -40\n2 0 1200 0 0\n0 1 0 600 -30\n"));
}

/// The refined net is rounded before the points are.
#[test]
fn the_points_are_those_of_the_refined_net() {
    let mut random = Random::new(161);
    let mut differ = 0;
    for _ in 0..10 {
        let numbers = nets::random_net(&mut random, (3, 2), Numbers::Small);
        let text = check(&netfile::file(&numbers, (3, 2)));
        for line in text.lines().skip(1) {
            let all: Vec<i32> = line.split(' ').map(|x| x.parse().expect("x")).collect();
            let place = (512 * all[0] as usize, 512 * all[1] as usize);
            let start = oracle::surface_point(&numbers, (3, 2), place, 3).expect("accepted");
            differ += usize::from(all[2..] != start);
        }
    }
    assert!(differ > 0, "the inputs do not tell the two nets apart");
}

#[test]
fn random_nets_wide_and_high() {
    let mut random = Random::new(162);
    for (round, size) in [
        (2, 2),
        (2, 3),
        (3, 2),
        (4, 7),
        (7, 4),
        (2, 30),
        (30, 2),
        (3, 100),
        (100, 3),
        (12, 12),
    ]
    .into_iter()
    .enumerate()
    {
        for offset in 0..2 {
            let file = random_file(&mut random, size, NUMBERS[(round + offset) % 4]);
            let fine = refinement::refined_size(size, 1).expect("a size");
            expect_listed(&file, fine);
        }
    }
}

#[test]
fn numbers_of_every_length_and_both_signs() {
    let values = [
        0,
        1,
        -1,
        9,
        -9,
        10,
        -10,
        99,
        -99,
        100,
        -100,
        1000,
        -1000,
        65_536,
        -65_536,
        999_999,
        -999_999,
        1_000_000,
        -1_000_000,
        9_999_999,
        -9_999_999,
        10_000_000,
        -10_000_000,
        LIMIT,
        -LIMIT,
    ];
    for value in values {
        let net = [value; record::numbers((2, 2))];
        let text = check(&netfile::file(&net, (2, 2)));
        let line = format!("1 2 {value} {value} {value}");
        assert!(text.lines().any(|found| found == line), "{text}");
    }
    // Each coordinate with a sign of its own.
    for signs in 0..8 {
        let [x, y, z] = [0, 1, 2].map(|c| if signs >> c & 1 == 0 { 7 << c } else { -7 << c });
        let control: Control = [x, y, z];
        let text = check(&netfile::file(&control.repeat(12), (2, 2)));
        assert!(text.ends_with(&format!("\n2 2 {x} {y} {z}\n")), "{text}");
    }
}

/// The refined nets with the most numbers that the output buffer holds, and the next ones.
#[test]
fn the_greatest_refined_nets_that_fit() {
    let mut random = Random::new(163);
    for (size, fits) in [
        ((2, 303), true),
        ((303, 2), true),
        ((21, 22), true),
        ((22, 21), true),
        // 17 · 107 = 1819 vertices: 9 times them is 13 below the buffer's length.
        ((9, 54), true),
        ((54, 9), true),
        // 3 · 607 = 1821 vertices: 9 times them is 5 above it.
        ((2, 304), false),
        ((304, 2), false),
        ((22, 22), false),
        ((9, 55), false),
        ((42, 42), false),
        // The net itself has 1,820 vertices, the most that the net buffer holds.
        ((20, 91), false),
        ((455, 4), false),
        // The longest sides that one step takes.
        ((513, 2), false),
        ((2, 513), false),
    ] {
        let file = random_file(&mut random, size, Numbers::Large);
        if fits {
            expect_listed(&file, refinement::refined_size(size, 1).expect("a size"));
        } else {
            expect_refused(&file, 5);
        }
    }
}

/// A side above 513; the refined net would not fit either.
#[test]
fn four_refined_side_above_1025() {
    for size in [(514, 2), (2, 514), (3, 514), (606, 3), (910, 2), (2, 910)] {
        let file = zero_file(size);
        assert!(file.len() <= BYTES);
        expect_refused(&file, 4);
    }
}

/// Told after the height word: nothing has to follow it.
#[test]
fn five_net_too_large_for_the_buffer() {
    for size in [(3, 607), (607, 3), (1025, 2), (2, 1025), (1025, 1025)] {
        let file = zero_file(size);
        for len in [8, 9, 12, BYTES - 1, BYTES, file.len()] {
            expect_refused(&file[..len], 5);
        }
        expect_refused(&file[..7], 7);
    }
}

#[test]
fn one_side_outside_2_to_1025() {
    let file = door_corner_file();
    for side in [0, 1, 1026, 1 << 16, (1 << 28) - 1] {
        expect_refused(&with_word(&file, 0, netfile::word(WIDTH, side)), 1);
        expect_refused(&with_word(&file, 1, netfile::word(HEIGHT, side)), 1);
    }
}

#[test]
fn three_number_beyond_its_range() {
    let file = door_corner_file();
    for position in [0, 1, 2, 17, 34, 35] {
        for value in [i64::from(LIMIT) + 1, -i64::from(LIMIT) - 1, -1 << 27] {
            let word = netfile::word(netfile::number_kind(position), value);
            expect_refused(&with_word(&file, 2 + position, word), 3);
        }
    }
}

#[test]
fn seven_fewer_bytes_than_the_file_has() {
    expect_refused(&[], 7);
    let file = door_corner_file();
    for len in [1, 3, 4, 7, 8, 9, 80, 154, 155] {
        expect_refused(&file[..len], 7);
    }
}

#[test]
fn eight_wrong_kind_or_end_payload() {
    let file = door_corner_file();
    expect_refused(&with_word(&file, 0, 0x2000_0002), 8);
    expect_refused(&with_word(&file, 1, 0x1000_0002), 8);
    expect_refused(&with_word(&file, 2, 0x4000_0000), 8);
    expect_refused(&with_word(&file, 37, 0x6000_0000), 8);
    expect_refused(&with_word(&file, 38, netfile::word(END, 1)), 8);
    expect_refused(b"net 2 2\n", 8);
}

#[test]
fn nine_bytes_after_the_end_word() {
    let file = door_corner_file();
    for count in [1, 4, 156, BYTES - 156, BYTES, 4 * BYTES] {
        expect_refused(&[&file[..], &vec![0; count]].concat(), 9);
    }
    expect_refused(&[&file[..], &file].concat(), 9);
}

/// The longest file of a net that fits the net buffer, and one that is longer by its tail.
#[test]
fn the_longest_file_that_is_taken_whole() {
    for (size, refusal) in [((20, 91), 5), ((2, 910), 4)] {
        let file = zero_file(size);
        assert_eq!(file.len(), BYTES - 4);
        expect_refused(&file, refusal);
        for count in [1, 4, 5, BYTES] {
            expect_refused(&[&file[..], &vec![0x60; count]].concat(), 9);
        }
    }
}

/// Longer than what is taken: its first fault lies in those bytes.
#[test]
fn the_first_fault_of_a_long_input() {
    let tail = vec![0; 3 * BYTES];
    let long = |file: &[u8]| [file, &tail].concat();
    expect_refused(&tail, 8);
    let file = zero_file((20, 91));
    let last = file.len() / 4 - 1;
    let beyond = netfile::word(netfile::X, i64::from(LIMIT) + 1);
    expect_refused(&long(&with_word(&file, 2, beyond)), 3);
    expect_refused(&long(&with_word(&file, last - 3, beyond)), 3);
    expect_refused(&long(&with_word(&file, last, netfile::word(END, 1))), 8);
    expect_refused(&long(&with_word(&file, 0, netfile::word(WIDTH, 1))), 1);
    expect_refused(&long(&zero_file((607, 3))), 5);
    expect_refused(&long(&door_corner_file()), 9);
}

/// The input comes as the writer gives it, a part of a word or many words at a time.
#[test]
fn an_input_in_pieces() {
    let mut random = Random::new(164);
    for (size, tail) in [
        ((2, 2), 0),
        ((5, 9), 0),
        ((9, 54), 0),
        ((9, 54), 3),
        ((20, 91), 0),
    ] {
        let mut file = random_file(&mut random, size, Numbers::Mixed);
        file.resize(file.len() + tail, 0);
        let (start, rest) = file.split_at(6);
        let (middle, end) = rest.split_at(rest.len() / 2 + 1);
        let text = run_in_pieces(&[&start[..1], &start[1..], middle, end]);
        assert!(text == expected(&file), "{size:?} and {tail} bytes");
    }
}

/// From a file the count of bytes that were taken can be seen.
#[test]
fn no_more_than_65536_bytes_are_taken() {
    let path = Path::new(env!("CARGO_TARGET_TMPDIR")).join("listing-input");
    for (size, tail) in [
        ((2, 2), 0),
        ((2, 2), 4 * BYTES),
        ((20, 91), BYTES),
        ((607, 3), 1),
    ] {
        let mut input = zero_file(size);
        input.resize(input.len() + tail, 0);
        fs::write(&path, &input).expect("written");
        let mut file = File::open(&path).expect("opened");
        // Both have one position in the file.
        let stdin = file.try_clone().expect("the same file");
        let output = command().stdin(stdin).output().expect("output");
        assert_eq!(printed(output), expected(&input));
        let taken = file.stream_position().expect("a position");
        assert!(taken <= BYTES as u64, "{taken} bytes were taken");
    }
}
