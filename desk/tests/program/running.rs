//! Runs the program in a folder of its own and looks at how it ended.

use std::ffi::OsString;
use std::fs;
use std::io::{self, ErrorKind, Write};
use std::path::{Path, PathBuf};
use std::process::{Command, Output, Stdio};
use std::thread;
use ups::Refusal;
use ups_tests::netfile;
use ups_tests::nets::{self, Numbers};
use ups_tests::random::Random;

pub type Size = (usize, usize);

/// The door corner's size.
pub const CORNER: Size = (2, 2);

/// A folder for one test, which is empty at first. The program runs in it, so that its arguments
/// are plain names.
pub struct Folder {
    path: PathBuf,
}

impl Folder {
    pub fn new(name: &str) -> Folder {
        let path = Path::new(env!("CARGO_TARGET_TMPDIR")).join("program");
        let path = path.join(name);
        // What an earlier run of the tests left.
        match fs::remove_dir_all(&path) {
            Err(error) if error.kind() == ErrorKind::NotFound => {}
            removed => removed.expect("removed"),
        }
        fs::create_dir_all(&path).expect("a folder");
        Folder { path }
    }

    pub fn path(&self, name: impl AsRef<Path>) -> PathBuf {
        self.path.join(name)
    }

    pub fn put(&self, name: &str, bytes: impl AsRef<[u8]>) {
        fs::write(self.path(name), bytes).expect("written");
    }

    /// The file of a net.
    pub fn put_net(&self, name: &str, net: &[i32], size: Size) {
        self.put(name, netfile::file(net, size));
    }

    /// The file of the door corner.
    pub fn put_corner(&self, name: &str) {
        self.put_net(name, &nets::door_corner(120), CORNER);
    }

    pub fn get(&self, name: &str) -> Vec<u8> {
        let path = self.path(name);
        fs::read(&path).unwrap_or_else(|error| panic!("{}: {error}", path.display()))
    }

    pub fn has(&self, name: &str) -> bool {
        fs::symlink_metadata(self.path(name)).is_ok()
    }

    pub fn remove(&self, name: impl AsRef<Path>) {
        fs::remove_file(self.path(name)).expect("removed");
    }

    /// The names of all files, in order.
    pub fn names(&self) -> Vec<OsString> {
        let entries = fs::read_dir(&self.path).expect("a folder");
        let name = |entry: io::Result<fs::DirEntry>| entry.expect("a file").file_name();
        let mut names: Vec<OsString> = entries.map(name).collect();
        names.sort();
        names
    }

    /// The program with these arguments, in this folder.
    pub fn command(&self, arguments: &[&str]) -> Command {
        let mut command = Command::new(env!("CARGO_BIN_EXE_ups"));
        command.args(arguments).current_dir(&self.path);
        command.stdin(Stdio::null());
        command.stdout(Stdio::piped()).stderr(Stdio::piped());
        command
    }

    pub fn run(&self, arguments: &[&str]) -> Output {
        self.command(arguments).output().expect("output")
    }

    /// Runs a line, whose words are the arguments.
    pub fn ups(&self, line: &str) -> Output {
        let arguments: Vec<&str> = line.split_whitespace().collect();
        self.run(&arguments)
    }

    /// Runs a line that must be accepted, and gives what it printed.
    pub fn printed(&self, line: &str) -> String {
        String::from_utf8(self.bytes(line)).expect("text")
    }

    pub fn bytes(&self, line: &str) -> Vec<u8> {
        accepted(self.ups(line), line)
    }

    /// Runs a line that must be accepted and print nothing.
    pub fn silent(&self, line: &str) {
        assert!(self.bytes(line).is_empty(), "{line}");
    }

    /// Runs a line that must be accepted and writes a file; the figures of a seam are printed too.
    pub fn writes(&self, line: &str) {
        let printed = self.bytes(line);
        assert_eq!(!printed.is_empty(), line.starts_with("seam"), "{line}");
    }

    /// Runs a line with this standard input.
    pub fn fed(&self, line: &str, input: &[u8]) -> Output {
        let arguments: Vec<&str> = line.split_whitespace().collect();
        fed(self.command(&arguments), input)
    }

    /// Runs a line that must be refused by the library with this number.
    pub fn refuses(&self, line: &str, number: u32) {
        let before = self.names();
        refused(&self.ups(line), number, line);
        assert_eq!(self.names(), before, "{line}");
    }

    /// Runs a line in which reading this net file must be refused.
    pub fn refuses_file(&self, line: &str, file: &str, number: u32) {
        let before = self.names();
        file_refused(&self.ups(line), file, number, line);
        assert_eq!(self.names(), before, "{line}");
    }

    /// Runs a line that must end with status 2 and a message that starts so after `ups: `.
    pub fn fails(&self, line: &str, message: &str) {
        let before = self.names();
        failed(&self.ups(line), message, line);
        assert_eq!(self.names(), before, "{line}");
    }
}

/// Runs a command with this standard input, which a thread of its own writes, since the program may
/// print before it has read all.
pub fn fed(mut command: Command, input: &[u8]) -> Output {
    let mut child = command.stdin(Stdio::piped()).spawn().expect("started");
    let mut pipe = child.stdin.take().expect("a pipe");
    thread::scope(|scope| {
        scope.spawn(move || match pipe.write_all(input) {
            // The program may end before it has read all.
            Err(error) if error.kind() == ErrorKind::BrokenPipe => {}
            written => written.expect("written"),
        });
        child.wait_with_output().expect("output")
    })
}

/// What an accepted run printed; it says nothing else.
pub fn accepted(output: Output, line: &str) -> Vec<u8> {
    let errors = String::from_utf8_lossy(&output.stderr);
    assert!(errors.is_empty(), "{line}: {errors}");
    assert_eq!(output.status.code(), Some(0), "{line}: {}", output.status);
    output.stdout
}

/// The one line of a run that ended with this status and printed nothing.
pub fn message(output: &Output, status: i32, line: &str) -> String {
    let errors = String::from_utf8(output.stderr.clone()).expect("text");
    let printed = String::from_utf8_lossy(&output.stdout);
    let code = output.status.code();
    assert_eq!(code, Some(status), "{line}: {} {errors}", output.status);
    assert!(printed.is_empty(), "{line}: {printed}");
    one_line(&errors, line).to_owned()
}

/// The text after `ups: ` of the single line that this must be.
pub fn one_line<'a>(errors: &'a str, line: &str) -> &'a str {
    let single = errors.strip_suffix('\n').expect("the end of a line");
    assert!(!single.contains(['\n', '\r']), "{line}: {errors:?}");
    let told = single.strip_prefix("ups: ");
    told.unwrap_or_else(|| panic!("{line}: {errors:?}"))
}

/// The message of a refusal.
pub fn refusal(number: u32) -> String {
    let sentence = Refusal::check(number).expect_err("a refusal");
    format!("refused {number}: {sentence}")
}

pub fn refused(output: &Output, number: u32, line: &str) {
    assert_eq!(message(output, 1, line), refusal(number), "{line}");
}

pub fn file_refused(output: &Output, file: &str, number: u32, line: &str) {
    let told = message(output, 1, line);
    assert_eq!(told, format!("{file}: {}", refusal(number)), "{line}");
}

pub fn failed(output: &Output, start: &str, line: &str) {
    let told = message(output, 2, line);
    assert!(told.starts_with(start), "{line}: {told:?}");
    assert!(told.len() > start.len(), "{line}: nothing after {start:?}");
}

/// A length in units of 1/1024 mm as an exact decimal of millimetres, without zeros at its end:
/// a unit is 9,765,625 parts of 10^10.
pub fn millimetres(units: i32) -> String {
    let parts = i64::from(units).abs() * 9_765_625;
    let sign = if units < 0 { "-" } else { "" };
    let (whole, part) = (parts / 10_000_000_000, parts % 10_000_000_000);
    let part = format!("{part:010}");
    let text = format!("{sign}{whole}.{}", part.trim_end_matches('0'));
    text.trim_end_matches('.').to_owned()
}

/// A net of 2 to 5 vertices a side, of numbers of this kind.
pub fn small_net(random: &mut Random, numbers: Numbers) -> (Vec<i32>, Size) {
    let size = (2 + random.below(4), 2 + random.below(4));
    (nets::random_net(random, size, numbers), size)
}

/// A net whose surface points are all different: a regular grid, with noise of less than half an
/// edge and any z.
pub fn plate(random: &mut Random, (w, h): Size) -> Vec<i32> {
    let mut net = Vec::new();
    for j in 0..h as i32 {
        for i in 0..w as i32 {
            let (x, y) = (6000 * i, 6000 * j);
            for (a, b) in [(3000, 0), (-3000, 3000), (0, -3000)] {
                let near = [0; 2].map(|_| random.between(-90, 90));
                let z = random.between(-4000, 4000);
                net.extend([x + a + near[0], y + b + near[1], z]);
            }
        }
    }
    net
}
