//! Files that are read, and files that are written whole or not at all.

use crate::failure::Failure;
use std::ffi::{OsStr, OsString};
use std::fmt;
use std::fs::{self, File, OpenOptions};
use std::io::{self, BufRead, BufReader, BufWriter, IsTerminal, Read, Write};
use std::path::{Path, PathBuf};
use std::process;
use ups::{file_bytes, triangles, Net, GREATEST_SIDE};

/// The longest file of a net; the first fault of a longer one is in these bytes and one more.
const MOST_BYTES: usize = file_bytes(GREATEST_SIDE, GREATEST_SIDE);
/// The most bytes of an outline that are read.
const MOST_TRIANGLES: usize = triangles(GREATEST_SIDE, GREATEST_SIDE);
/// Bytes that are read or written at once.
const BLOCK: usize = 1 << 16;
/// Names that are tried for a file beside another.
const MOST_NAMES: usize = 100;

/// Whether a name is standard input or output.
pub fn is_standard(name: &OsStr) -> bool {
    name == "-"
}

/// A file, or standard input, to be read.
pub fn open(name: &OsStr) -> Result<Box<dyn BufRead>, Failure> {
    if is_standard(name) {
        return Ok(Box::new(io::stdin().lock()));
    }
    let file = File::open(name).map_err(|error| Failure::reading(name, &error))?;
    Ok(Box::new(BufReader::with_capacity(BLOCK, file)))
}

/// The bytes of a file, at most so many.
fn bytes(name: &OsStr, most: usize) -> Result<Vec<u8>, Failure> {
    let mut bytes = Vec::new();
    let read = open(name)?.take(most as u64).read_to_end(&mut bytes);
    read.map_err(|error| Failure::reading(name, &error))?;
    Ok(bytes)
}

/// The net of a file.
pub fn net(name: &OsStr) -> Result<Net, Failure> {
    let file = bytes(name, MOST_BYTES + 1)?;
    Net::from_file(&file).map_err(|refusal| Failure::refused(name, refusal))
}

/// The bytes of an outline.
pub fn outline(name: &OsStr) -> Result<Vec<u8>, Failure> {
    bytes(name, MOST_TRIANGLES)
}

/// Where what is written goes.
enum Place {
    /// Standard output, a pipe or a device: there is nothing beside it.
    Straight,
    /// A file: written beside its place, and then renamed.
    Beside { path: PathBuf, beside: PathBuf },
}

/// A file that is being written, or standard output.
pub struct Output {
    name: OsString,
    place: Place,
    /// None once it is dropped.
    to: Option<BufWriter<Box<dyn Write>>>,
    /// The file, to be brought to the disk.
    file: Option<File>,
    renamed: bool,
}

impl Output {
    /// Begins to write a file.
    pub fn create(name: &OsStr) -> Result<Output, Failure> {
        let fault = |error: io::Error| Failure::writing(name, &error);
        if is_standard(name) {
            let to: Box<dyn Write> = Box::new(io::stdout().lock());
            return Ok(Output::new(name, Place::Straight, to, None));
        }
        let path = target(Path::new(name)).map_err(fault)?;
        let (place, file) = match fs::metadata(&path) {
            Ok(there) if !there.is_file() => (Place::Straight, straight(&path).map_err(fault)?),
            there => {
                if there.is_ok() {
                    // A file that must not be written is not replaced either.
                    straight(&path).map_err(fault)?;
                }
                let (beside, file) = create_beside(&path).map_err(fault)?;
                if let Ok(there) = there {
                    // Whoever may read the old file may read the new one.
                    let _ = file.set_permissions(there.permissions());
                }
                (Place::Beside { path, beside }, file)
            }
        };
        let same = file.try_clone().map_err(fault)?;
        Ok(Output::new(name, place, Box::new(same), Some(file)))
    }

    fn new(name: &OsStr, place: Place, to: Box<dyn Write>, file: Option<File>) -> Output {
        Output {
            name: name.to_owned(),
            place,
            to: Some(BufWriter::with_capacity(BLOCK, to)),
            file,
            renamed: false,
        }
    }

    /// Does something with the writer.
    fn with(
        &mut self,
        write: impl FnOnce(&mut dyn Write) -> io::Result<()>,
    ) -> Result<(), Failure> {
        let written = self.to.as_mut().map_or(Ok(()), |to| write(to));
        written.map_err(|error| Failure::writing(&self.name, &error))
    }

    /// Writes bytes.
    pub fn bytes(&mut self, bytes: &[u8]) -> Result<(), Failure> {
        self.with(|to| to.write_all(bytes))
    }

    /// Writes text.
    pub fn text(&mut self, text: fmt::Arguments) -> Result<(), Failure> {
        self.with(|to| to.write_fmt(text))
    }

    /// Whether it goes to a terminal.
    pub fn is_terminal(&self) -> bool {
        match &self.file {
            None => io::stdout().is_terminal(),
            Some(file) => file.is_terminal(),
        }
    }

    fn is_beside(&self) -> bool {
        matches!(self.place, Place::Beside { .. })
    }

    /// Nothing is left to be written, and a regular file is on the disk.
    fn complete(&mut self) -> Result<(), Failure> {
        self.with(|to| to.flush())?;
        match &self.file {
            Some(file) if self.is_beside() => {
                let synced = file.sync_all();
                synced.map_err(|error| Failure::writing(&self.name, &error))
            }
            _ => Ok(()),
        }
    }

    fn rename(&mut self) -> Result<(), Failure> {
        if let Place::Beside { path, beside } = &self.place {
            let renamed = fs::rename(beside, path);
            renamed.map_err(|error| Failure::writing(&self.name, &error))?;
        }
        self.renamed = true;
        Ok(())
    }
}

impl Drop for Output {
    /// What was not finished is taken away, and what was not written stays so.
    fn drop(&mut self) {
        self.to.take().map(BufWriter::into_parts);
        if let (false, Place::Beside { beside, .. }) = (self.renamed, &self.place) {
            let _ = fs::remove_file(beside);
        }
    }
}

/// Puts outputs into their places, once all of them are whole. What cannot be taken back, as on
/// standard output, is written last.
pub fn finish<const N: usize>(mut outputs: [Output; N]) -> Result<(), Failure> {
    for beside in [true, false] {
        let mut some = outputs
            .iter_mut()
            .filter(|output| output.is_beside() == beside);
        some.try_for_each(Output::complete)?;
    }
    outputs.iter_mut().try_for_each(Output::rename)
}

/// Writes a file of these bytes.
pub fn write(name: &OsStr, bytes: &[u8]) -> Result<(), Failure> {
    let mut output = Output::create(name)?;
    output.bytes(bytes)?;
    finish([output])
}

/// The file that a name stands for: of a link, what it leads to.
fn target(path: &Path) -> io::Result<PathBuf> {
    match fs::symlink_metadata(path) {
        Ok(there) if there.is_symlink() => fs::canonicalize(path),
        _ => Ok(path.to_owned()),
    }
}

fn straight(path: &Path) -> io::Result<File> {
    OpenOptions::new().write(true).open(path)
}

/// A new file in the folder of this one.
fn create_beside(path: &Path) -> io::Result<(PathBuf, File)> {
    let mut options = OpenOptions::new();
    options.write(true).create_new(true);
    let name = |n: usize| format!(".ups-{}-{n}.part", process::id());
    // A name is taken where a command writes two files to one folder.
    for n in 0..MOST_NAMES {
        let beside = path.with_file_name(name(n));
        match options.open(&beside) {
            Err(error) if error.kind() == io::ErrorKind::AlreadyExists => (),
            file => return Ok((beside, file?)),
        }
    }
    Err(io::ErrorKind::AlreadyExists.into())
}

/// Two names of one file, as far as can be told before it is there.
pub fn same(one: &OsStr, two: &OsStr) -> bool {
    let whole = |name: &OsStr| {
        let path = Path::new(name);
        let folder = path.parent().filter(|folder| *folder != Path::new(""));
        let folder = fs::canonicalize(folder.unwrap_or(Path::new("."))).ok()?;
        fs::canonicalize(path)
            .ok()
            .or(Some(folder.join(path.file_name()?)))
    };
    match (is_standard(one), is_standard(two)) {
        (true, true) => true,
        (false, false) => one == two || whole(one).is_some() && whole(one) == whole(two),
        _ => false,
    }
}
