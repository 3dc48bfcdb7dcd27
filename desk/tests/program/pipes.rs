//! Standard output that takes nothing, or no more: one line and status 2.

use crate::running::{one_line, plate, Folder};
use crate::texts::text;
use std::ffi::OsString;
use std::fs::OpenOptions;
use std::io::{self, Read};
use std::process::{Output, Stdio};
use ups_tests::random::Random;
use ups_tests::record;

/// A folder with a net of 9 by 9, given points, the net after 3 and 4 steps, with outlines, and the
/// parts of the larger one.
fn folder(name: &str) -> Folder {
    let folder = Folder::new(name);
    let mut random = Random::new(401);
    folder.put_net("net", &plate(&mut random, (9, 9)), (9, 9));
    let size = (65, 65);
    folder.put("points", text(&vec![123_456; record::given(size)], size));
    folder.silent("refine net -k 3 -o large");
    folder.silent("refine net -k 4 -o larger");
    folder.silent("split larger -o coarse -d details");
    folder.put("full", vec![1; 2 * 64 * 64]);
    folder.put("wide", vec![1; 2 * 128 * 128]);
    folder
}

/// Lines that write to standard output more than a pipe holds, which is 64 KB.
const LONG: [&str; 13] = [
    "list net -k 5",
    "list large -k 0 --outline full",
    "walk net --along left --step 1",
    "refine net -k 3 -o -",
    "refine larger -k 1 -o other --outline wide --fine-outline -",
    "mesh net -k 3 -o -",
    "picture net -k 4 -o -",
    "picture net -o - --net",
    "split larger -o - -d other",
    "split larger -o other -d -",
    "merge coarse details -o -",
    "clean details -t 1 -o -",
    "through points -o -",
];

/// Lines that write little.
const SHORT: [&str; 8] = [
    "--help",
    "--version",
    "refine --help",
    "check net",
    "list net -k 0",
    "point net 0 0",
    "seam net -k 0 -l 1 --along left",
    "seam net -k 0 -l 1 --along left -o -",
];

/// Status 2 and one line, and no other file.
fn check(folder: &Folder, output: &Output, names: &[OsString], line: &str) {
    let errors = String::from_utf8(output.stderr.clone()).expect("text");
    assert_eq!(output.status.code(), Some(2), "{line}: {errors}");
    assert!(!one_line(&errors, line).is_empty());
    assert_eq!(folder.names(), names, "{line}");
}

#[test]
fn a_full_device() {
    let folder = folder("pipes-full");
    let names = folder.names();
    for line in LONG.iter().chain(&SHORT) {
        let full = OpenOptions::new().write(true).open("/dev/full");
        let words: Vec<&str> = line.split(' ').collect();
        let mut command = folder.command(&words);
        let output = command.stdout(full.expect("a device")).output();
        check(&folder, &output.expect("output"), &names, line);
    }
}

/// Nobody reads, from the start.
#[test]
fn a_pipe_that_is_closed_at_first() {
    let folder = folder("pipes-closed");
    let names = folder.names();
    for line in LONG.iter().chain(&SHORT) {
        let (reader, writer) = io::pipe().expect("a pipe");
        drop(reader);
        let words: Vec<&str> = line.split(' ').collect();
        let output = folder.command(&words).stdout(writer).output();
        check(&folder, &output.expect("output"), &names, line);
    }
}

/// The reader takes one byte and goes.
#[test]
fn a_pipe_that_is_closed_in_between() {
    let folder = folder("pipes-between");
    let names = folder.names();
    for line in LONG {
        let words: Vec<&str> = line.split(' ').collect();
        let mut child = folder.command(&words).spawn().expect("started");
        let mut pipe = child.stdout.take().expect("a pipe");
        let mut byte = [0];
        pipe.read_exact(&mut byte).expect("a byte");
        drop(pipe);
        let output = child.wait_with_output().expect("output");
        check(&folder, &output, &names, line);
        // The rest did not fit into the pipe.
        assert!(folder.bytes(line).len() > 65_536, "{line}");
        if folder.has("other") {
            folder.remove("other");
        }
    }
}

/// An empty file is refused as one that ends where a word is due, and no outline as too short.
#[test]
fn a_standard_input_that_is_empty() {
    let folder = folder("pipes-empty");
    for (line, status) in [
        ("check -", 1),
        ("list net --outline -", 1),
        ("merge - details -o -", 1),
    ] {
        let words: Vec<&str> = line.split(' ').collect();
        let output = folder.command(&words).stdin(Stdio::null()).output();
        let output = output.expect("output");
        let errors = String::from_utf8(output.stderr).expect("text");
        assert_eq!(output.status.code(), Some(status), "{line}: {errors}");
        assert!(one_line(&errors, line).contains("refused "), "{errors}");
        assert!(output.stdout.is_empty());
    }
}
