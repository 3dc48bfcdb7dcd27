//! Wrong usage: status 2 and one line, and no file is written.

use crate::running::{failed, Folder};
use crate::texts::text;
use std::fs;

/// A folder with a net of 2 by 2, one of 3 by 3, an outline and details.
fn folder(name: &str) -> Folder {
    let folder = Folder::new(name);
    folder.put_corner("net");
    folder.put_net("odd", &[0; 81], (3, 3));
    folder.put("outline", [1, 1]);
    folder.put("details", text(&[0; 81], (3, 3)));
    folder
}

/// Each of these lines is wrong.
fn wrong(folder: &Folder, lines: &[&str]) {
    for line in lines {
        folder.fails(line, "");
    }
}

/// Accepted lines, one of each command, to be made wrong.
const LINES: [&str; 12] = [
    "check net",
    "list net",
    "point net 0 0",
    "walk net --along left",
    "refine net -k 1 -o out",
    "seam net -k 1 -l 0 --along left",
    "mesh net -k 1 -o out.stl",
    "picture net -o out",
    "split odd -o out -d out2",
    "merge net details -o out",
    "clean details -t 1 -o out",
    "through details -o out",
];

#[test]
fn commands_that_are_not_there() {
    let folder = folder("usage-commands");
    let lines = [
        "",
        "chec net",
        "Check net",
        "checks net",
        "-",
        "--",
        "-k 1",
        "--outline net",
    ];
    wrong(&folder, &lines);
    failed(&folder.run(&["", "net"]), "", "an empty command");
    failed(&folder.run(&["check net"]), "", "two words in one");
}

/// The lines are accepted, and without any one of their words they are not.
#[test]
fn every_word_of_the_lines_is_needed() {
    let folder = folder("usage-words");
    for line in LINES {
        let words: Vec<&str> = line.split(' ').collect();
        for at in 0..words.len() {
            let mut fewer = words.clone();
            fewer.remove(at);
            folder.fails(&fewer.join(" "), "");
        }
    }
    for line in LINES {
        let output = folder.ups(line);
        assert_eq!(output.status.code(), Some(0), "{line}: {output:?}");
    }
}

#[test]
fn operands_and_options_that_are_too_many() {
    let folder = folder("usage-more");
    for line in LINES {
        for more in [
            "net",
            "--no-such",
            "-x",
            "-x 1",
            "--no-such=1",
            "---",
            "-kk",
        ] {
            folder.fails(&format!("{line} {more}"), "");
        }
        folder.fails(&format!("{line} -- more"), "");
        // An option that is given twice, and one whose value is missing.
        for (option, value) in [("-k", "1"), ("-o", "out"), ("-t", "1"), ("--along", "left")] {
            let given = format!("{option} {value}");
            if line.contains(&given) {
                folder.fails(&format!("{line} {given}"), "");
                folder.fails(&format!("{line} {option}"), "");
            }
        }
    }
    let repeated = [
        "point net 0 0 --mm --mm",
        "picture net -o out --net --net",
        "list net -k 1 -k 1",
        "list net --outline outline --outline=outline",
        "walk net --along left --along left",
        "walk net --along left --step 512 --step 512",
        "seam net -k 1 -l 0 -l 0 --along left",
        "split odd -o out -d out2 -d out3",
    ];
    wrong(&folder, &repeated);
}

/// Options of other commands.
#[test]
fn options_that_a_command_does_not_take() {
    let folder = folder("usage-other");
    let lines = [
        "check net -k 1",
        "check net -o out",
        "list net -o out",
        "list net --mm",
        "walk net --along left -o out",
        "point net 0 0 --step 5",
        "refine net -k 1 -o out --net",
        "mesh net -k 1 -o out.stl --mm",
        "split odd -o out -d out2 --outline outline",
        "split odd -o out -d out2 -k 1",
        "merge net details -o out -k 1",
        "merge net details -o out -d out2",
        "clean details -t 1 -o out -k 1",
        "through details -o out -t 1",
        "through details -o out --outline outline",
        "point net 0 0 --mm=1",
        "picture net -o out --net=yes",
    ];
    wrong(&folder, &lines);
}

/// A number is decimal digits.
#[test]
fn numbers_that_are_none() {
    let folder = folder("usage-numbers");
    for number in [
        "x", "1.0", "1e1", "0x1", "1,000", "1_000", "one", "k", "½", "١",
    ] {
        let lines = [
            format!("list net -k {number}"),
            format!("list net -k={number}"),
            format!("point net {number} 0"),
            format!("point net 0 {number}"),
            format!("point net 0 0 -k {number}"),
            format!("walk net --along left --step {number}"),
            format!("walk net --along row {number}"),
            format!("walk net --along column {number}"),
            format!("refine net -k {number} -o out"),
            format!("seam net -k {number} -l 0 --along left"),
            format!("seam net -k 0 -l {number} --along left"),
            format!("mesh net -k {number} -o out.stl"),
            format!("picture net -k {number} -o out"),
            format!("clean details -t {number} -o out"),
        ];
        for line in lines {
            folder.fails(&line, "");
        }
    }
}

/// No number has a sign or a blank, or no digit.
#[test]
fn signs_and_blanks() {
    let folder = folder("usage-signs");
    wrong(
        &folder,
        &[
            "list net -k -1",
            "point net -1 0",
            "point net -- -1 0",
            "point net -- 0 -1",
            "list net --outline= -k 1",
            "clean details -t -1 -o out",
            "walk net --along row -1",
        ],
    );
    for arguments in [
        ["list", "net", "-k", ""],
        ["list", "net", "-k", " 1"],
        ["point", "net", "0", ""],
        ["point", "net", "0 ", "0"],
    ] {
        failed(&folder.run(&arguments), "", &format!("{arguments:?}"));
    }
}

#[test]
fn lines_and_steps_that_are_none() {
    let folder = folder("usage-lines");
    for line in [
        "middle", "Left", "lefts", "row", "column", "0", "rows 0", "row x",
    ] {
        folder.fails(&format!("walk net --along {line}"), "");
        folder.fails(&format!("seam net -k 0 -l 1 --along {line}"), "");
    }
    wrong(
        &folder,
        &[
            "walk net --along left --step 0",
            "walk net --along left --step 000",
        ],
    );
}

#[test]
fn meshes_by_the_end_of_their_name() {
    let folder = folder("usage-meshes");
    for name in [
        "out",
        "out.svg",
        "stl",
        "out.stl.gz",
        "out.",
        "out.plyx",
        "obj",
    ] {
        folder.fails(&format!("mesh net -k 1 -o {name}"), "");
    }
    for name in [".stl", "out.x.stl", "out.STL"] {
        folder.silent(&format!("mesh net -k 1 -o {name}"));
        assert_eq!(folder.get(name).len(), 84 + 50 * 8, "{name}");
    }
}

#[test]
fn a_fine_outline_needs_an_outline() {
    let folder = folder("usage-fine");
    folder.fails("refine net -k 1 -o out --fine-outline fine", "");
    folder.silent("refine net -k 1 -o out --fine-outline fine --outline outline");
    assert_eq!(folder.get("fine"), [1; 8]);
}

/// Standard input is read once, and standard output written once.
#[test]
fn standard_input_and_output_twice() {
    let folder = folder("usage-twice");
    wrong(
        &folder,
        &[
            "check - --outline -",
            "list - --outline -",
            "point - 0 0 --outline=-",
            "mesh - -k 1 -o out.stl --outline -",
            "merge - - -o out",
            "split odd -o - -d -",
            "refine net -k 1 -o - --outline outline --fine-outline -",
        ],
    );
    // Once each they may stand in one line.
    let printed = folder.fed("split - -o - -d out", &folder.get("odd"));
    assert_eq!(printed.status.code(), Some(0));
    let printed = folder.fed("refine net -k 1 -o - --outline -", &[1, 1]);
    assert_eq!(printed.status.code(), Some(0));
    assert_eq!(printed.stdout.len(), 336);
}

#[test]
fn files_that_cannot_be_read() {
    let folder = folder("usage-reading");
    fs::create_dir(folder.path("folder")).expect("a folder");
    for name in [
        "no-such",
        "folder",
        "no/such",
        "net/more",
        "../usage-reading/no",
    ] {
        let start = format!("{name}: ");
        for line in [
            format!("check {name}"),
            format!("list net --outline {name}"),
            format!("point {name} 0 0"),
            format!("walk {name} --along left"),
            format!("refine {name} -k 1 -o out"),
            format!("seam {name} -k 0 -l 1 --along left"),
            format!("mesh {name} -k 1 -o out.obj"),
            format!("picture net -o out --outline {name}"),
            format!("split {name} -o out -d out2"),
            format!("merge {name} details -o out"),
            format!("merge net {name} -o out"),
            format!("clean {name} -t 1 -o out"),
            format!("through {name} -o out"),
        ] {
            folder.fails(&line, &start);
        }
    }
    // A name of bytes that are no text.
    let name = std::os::unix::ffi::OsStrExt::from_bytes(b"\xff\xfe");
    let mut command = folder.command(&["check"]);
    let output = command.arg::<&std::ffi::OsStr>(name).output();
    failed(&output.expect("output"), "", "a name that is no text");
}

#[test]
fn files_that_cannot_be_written() {
    let folder = folder("usage-writing");
    fs::create_dir(folder.path("folder.stl")).expect("a folder");
    for name in ["no/such.stl", "folder.stl", "net/more.stl"] {
        let start = format!("{name}: ");
        for line in [
            format!("refine net -k 1 -o {name}"),
            format!("refine net -k 1 -o out --outline outline --fine-outline {name}"),
            format!("refine net -k 1 -o {name} --outline outline --fine-outline out"),
            format!("seam net -k 0 -l 1 --along left -o {name}"),
            format!("mesh net -k 1 -o {name}"),
            format!("picture net -o {name}"),
            format!("split odd -o {name} -d out"),
            format!("split odd -o out -d {name}"),
            format!("merge net details -o {name}"),
            format!("clean details -t 1 -o {name}"),
            format!("through details -o {name}"),
        ] {
            folder.fails(&line, &start);
        }
    }
    assert!(fs::read_dir(folder.path("folder.stl"))
        .expect("a folder")
        .next()
        .is_none());
}
