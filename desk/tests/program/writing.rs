//! How files are written: whole or not at all, beside their place and then renamed.

use crate::running::{accepted, failed, message, plate, Folder};
use crate::texts::text;
use std::fs::{self, Permissions};
use std::io::Read;
use std::os::unix::fs::{symlink, FileTypeExt, MetadataExt, PermissionsExt};
use std::path::PathBuf;
use std::process::{Command, Output, Stdio};
use std::thread;
use ups_tests::random::Random;
use ups_tests::record;

/// A folder with a net of 9 by 9, an outline of it, its split parts and given points.
fn folder(name: &str) -> Folder {
    let folder = Folder::new(name);
    let mut random = Random::new(391);
    let net = plate(&mut random, (9, 9));
    folder.put_net("net", &net, (9, 9));
    folder.put("outline", [1; 128]);
    folder.put(
        "points",
        text(&vec![123_456; record::given((33, 33))], (33, 33)),
    );
    folder.put_net("middle", &plate(&mut random, (17, 17)), (17, 17));
    folder.silent("refine net -k 2 -o large");
    folder.silent("split large -o coarse -d details");
    folder
}

/// Lines that write one file `OUT` of more than 8 KB.
const LINES: [&str; 12] = [
    "refine net -k 2 -o OUT",
    "refine net -k 2 -o OUT --outline outline",
    "seam net -k 0 -l 2 --along left -o OUT",
    "mesh net -k 2 -o OUT.stl",
    "mesh net -k 2 -o OUT.ply",
    "mesh net -k 2 -o OUT.obj",
    "picture net -k 2 -o OUT",
    "picture net --net -o OUT --outline outline",
    "merge coarse details -o OUT",
    "clean details -t 1 -o OUT",
    "through points -o OUT",
    "refine large -k 0 -o OUT",
];

/// Lines that write two files, of which at least one has more than 8 KB. In the first line the
/// coarse net has less and the details have more.
const PAIRS: [&str; 4] = [
    "split middle -o OUT -d OUT2",
    "split large -o OUT2 -d OUT",
    "refine net -k 3 -o OUT --outline outline --fine-outline OUT2",
    "refine net -k 3 -o OUT2 --outline outline --fine-outline OUT",
];

/// The name of the file that a line writes.
fn out(line: &str) -> &str {
    let mut words = line.split(' ').skip_while(|word| *word != "-o");
    words.nth(1).expect("a name")
}

/// Runs a line with a limit of 8 KB for a file, above which writing fails.
fn limited(folder: &Folder, line: &str) -> Output {
    let script = "trap '' XFSZ; ulimit -f 8; exec \"$0\" \"$@\"";
    let mut command = Command::new("bash");
    command.args(["-c", script, env!("CARGO_BIN_EXE_ups")]);
    command.args(line.split(' ')).current_dir(folder.path(""));
    command.stdin(Stdio::null()).output().expect("output")
}

#[test]
fn a_disk_that_gets_full_in_the_middle_of_a_file() {
    let folder = folder("writing-limit");
    let names = folder.names();
    for line in LINES {
        let name = out(line);
        let start = format!("{name}: ");
        failed(&limited(&folder, line), &start, line);
        assert_eq!(folder.names(), names, "{line}");
        // What was there before stays.
        folder.put(name, b"before");
        failed(&limited(&folder, line), &start, line);
        assert_eq!(folder.get(name), b"before", "{line}");
        folder.remove(name);
        assert_eq!(folder.names(), names, "{line}");
        // Without the limit it is accepted, and has more than 8 KB.
        folder.writes(line);
        assert!(folder.get(name).len() > 8192, "{line}");
        folder.remove(name);
    }
}

#[test]
fn both_files_or_none() {
    let folder = folder("writing-pairs");
    let names = folder.names();
    for line in PAIRS {
        message(&limited(&folder, line), 2, line);
        assert_eq!(folder.names(), names, "{line}");
        for (one, two) in [("none/OUT", "OUT2"), ("OUT", "none/OUT2")] {
            // The longer name first, since the other is a part of it.
            let line = line.replace("OUT2", "second").replace("OUT", one);
            let line = line.replace("second", two);
            message(&folder.ups(&line), 2, &line);
            assert_eq!(folder.names(), names, "{line}");
        }
        folder.silent(line);
        assert!(folder.get("OUT").len().max(folder.get("OUT2").len()) > 8192);
        assert!(!line.contains("middle") || folder.get("OUT").len() < 8192);
        folder.put("OUT", b"before");
        folder.put("OUT2", b"before");
        message(&limited(&folder, line), 2, line);
        assert_eq!(
            [folder.get("OUT"), folder.get("OUT2")],
            [b"before", b"before"]
        );
        folder.remove("OUT");
        folder.remove("OUT2");
        assert_eq!(folder.names(), names, "{line}");
    }
}

/// A folder in the place of the second file: it cannot be written, so the first is not.
#[test]
fn a_folder_in_the_place_of_a_file() {
    let folder = folder("writing-folder");
    fs::create_dir(folder.path("OUT2")).expect("a folder");
    let names = folder.names();
    for line in PAIRS {
        failed(&folder.ups(line), "OUT2: ", line);
        assert_eq!(folder.names(), names, "{line}");
    }
    let inside = fs::read_dir(folder.path("OUT2")).expect("a folder");
    assert_eq!(inside.count(), 0);
}

#[test]
fn a_file_that_is_there_is_replaced() {
    let folder = folder("writing-replaced");
    for line in LINES {
        let name = out(line);
        folder.writes(line);
        let due = folder.get(name);
        let before = vec![b'x'; due.len() + 1000];
        folder.put(name, &before);
        // Another name of the old file, which is not written into.
        fs::hard_link(folder.path(name), folder.path("old")).expect("a link");
        folder.writes(line);
        assert!(folder.get(name) == due, "{line}");
        assert!(folder.get("old") == before, "{line}: not renamed");
        folder.remove("old");
        folder.remove(name);
    }
}

/// What may be done with a file stays the same where it is replaced.
#[test]
fn permissions_are_kept() {
    let folder = folder("writing-permissions");
    for mode in [0o600, 0o640, 0o664, 0o755] {
        folder.put("OUT", b"before");
        let path = folder.path("OUT");
        fs::set_permissions(&path, Permissions::from_mode(mode)).expect("set");
        folder.silent("refine net -k 2 -o OUT");
        let there = fs::metadata(&path).expect("there");
        assert_eq!(there.permissions().mode() & 0o777, mode);
        assert_ne!(folder.get("OUT"), b"before");
    }
}

/// The name of a file may be as long as the system takes it.
#[test]
fn the_longest_name() {
    let folder = folder("writing-long");
    let [one, two] = ["a", "b"].map(|letter| letter.repeat(255));
    folder.silent(&format!("split large -o {one} -d {two}"));
    assert_eq!(folder.get(&one), folder.get("coarse"));
    assert_eq!(folder.get(&two), folder.get("details"));
}

/// The file behind a link is replaced, and the link stays.
#[test]
fn links() {
    let folder = folder("writing-links");
    fs::create_dir(folder.path("inner")).expect("a folder");
    for line in LINES {
        let name = out(line);
        folder.writes(line);
        let due = folder.get(name);
        folder.remove(name);
        folder.put("inner/file", b"before");
        symlink("inner/file", folder.path(name)).expect("a link");
        folder.writes(line);
        let link = fs::symlink_metadata(folder.path(name)).expect("there");
        assert!(link.is_symlink(), "{line}");
        assert!(folder.get("inner/file") == due, "{line}");
        folder.remove(name);
    }
    let inner = fs::read_dir(folder.path("inner")).expect("a folder");
    assert_eq!(inner.count(), 1);
}

/// A device that is always full: one of the test's own where it may be made, so that a program
/// that replaces it does no harm.
fn full_device(folder: &Folder) -> PathBuf {
    let own = folder.path("full");
    let mut mknod = Command::new("mknod");
    let made = mknod.arg(&own).args(["c", "1", "7"]).stderr(Stdio::null());
    let made = made.status().is_ok_and(|status| status.success());
    if made && fs::OpenOptions::new().write(true).open(&own).is_ok() {
        return own;
    }
    PathBuf::from("/dev/full")
}

#[test]
fn a_device_is_written_straight() {
    let folder = folder("writing-device");
    let device = full_device(&folder);
    let before = fs::metadata(&device).expect("a device");
    assert!(before.file_type().is_char_device());
    let path = device.to_str().expect("text").to_owned();
    let names = folder.names();
    let start = format!("{path}: ");
    for line in LINES.iter().filter(|line| !line.starts_with("mesh")) {
        let line = line.replace("OUT", &path);
        failed(&folder.ups(&line), &start, &line);
    }
    for line in PAIRS {
        for (one, two) in [(path.as_str(), "OUT2"), ("OUT2", path.as_str())] {
            let line = line.replace("OUT2", "second").replace("OUT", one);
            let line = line.replace("second", two);
            failed(&folder.ups(&line), &start, &line);
            assert_eq!(folder.names(), names, "{line}");
        }
    }
    let after = fs::metadata(&device).expect("a device");
    assert_eq!((after.ino(), after.rdev()), (before.ino(), before.rdev()));
    assert!(after.file_type().is_char_device());
    assert_eq!(folder.names(), names);
}

/// Where a file cannot be written, what was to be printed beside it is not, since that cannot be
/// taken back.
#[test]
fn nothing_is_printed_where_a_file_fails() {
    let folder = folder("writing-printed");
    let names = folder.names();
    for line in [
        "seam net -k 0 -l 2 --along left -o OUT",
        "split middle -o - -d OUT",
        "split large -o OUT -d -",
        "refine net -k 2 -o OUT --outline outline --fine-outline -",
    ] {
        failed(&limited(&folder, line), "OUT: ", line);
        assert_eq!(folder.names(), names, "{line}");
        folder.fails(&line.replace("OUT", "no/such"), "no/such: ");
    }
    let line = "refine net -k 3 -o - --outline outline --fine-outline no/such";
    folder.fails(line, "no/such: ");
}

/// A pipe with a name is written straight as well, and stays.
#[test]
fn a_pipe_is_written_straight() {
    let folder = folder("writing-pipe");
    let path = folder.path("pipe");
    let made = Command::new("mkfifo").arg(&path).status();
    assert!(made.expect("mkfifo").success());
    let names = folder.names();
    let due = folder.bytes("refine net -k 2 -o -");
    // Opened for both, which waits for nobody; the reader's end comes when it is closed.
    let both = fs::OpenOptions::new().read(true).write(true).open(&path);
    let both = both.expect("opened");
    let mut from = fs::File::open(&path).expect("opened");
    let read = thread::scope(|scope| {
        let reader = scope.spawn(move || {
            let mut bytes = Vec::new();
            from.read_to_end(&mut bytes).expect("read");
            bytes
        });
        let output = folder.ups("refine net -k 2 -o pipe");
        drop(both);
        accepted(output, "refine");
        reader.join().expect("read")
    });
    assert!(read == due);
    let kind = fs::metadata(&path).expect("there").file_type();
    assert!(kind.is_fifo());
    assert_eq!(folder.names(), names);
}
