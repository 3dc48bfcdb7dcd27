//! Details and given points as text: a line with width and height, then a line with nine whole
//! numbers for each vertex.

use crate::arguments::digits;
use crate::failure::Failure;
use crate::files::{self, Output};
use crate::progress::Progress;
use std::ffi::OsStr;
use std::io::{BufRead, Read};
use ups::{net_numbers, RECORD};

/// Longer lines are none that is due, so that an endless one is not read to its end.
const LONGEST: u64 = 4096;

const SIZE: &str = "a line with width and height is due";
const NUMBERS: &str = "a line with nine whole numbers of 32 bits is due";
const END: &str = "no line is due after those of the vertices";

/// What a text has: of a size that the library refuses, the size alone, and fewer numbers than the
/// size needs where lines are missing.
pub struct Text {
    pub w: usize,
    pub h: usize,
    pub numbers: Vec<i32>,
}

/// The lines of a file, counted.
struct Lines<'a> {
    name: &'a OsStr,
    from: Box<dyn BufRead>,
    line: Vec<u8>,
    count: usize,
}

impl Lines<'_> {
    /// Whether there is a next line, which is then in `line`.
    fn next(&mut self) -> Result<bool, Failure> {
        self.line.clear();
        let mut some = self.from.by_ref().take(LONGEST);
        let read = some.read_until(b'\n', &mut self.line);
        let read = read.map_err(|error| Failure::reading(self.name, &error))?;
        self.count += 1;
        Ok(read > 0)
    }

    /// The words of the line, of a long one none.
    fn words(&self) -> impl Iterator<Item = &str> {
        let whole = (self.line.len() as u64) < LONGEST || self.line.ends_with(b"\n");
        let text = std::str::from_utf8(&self.line).ok().filter(|_| whole);
        text.unwrap_or("no").split_ascii_whitespace()
    }

    fn wrong(&self, due: &str) -> Failure {
        Failure::line(self.name, self.count, due)
    }

    fn size(&mut self) -> Result<(usize, usize), Failure> {
        self.next()?;
        let mut words = self.words();
        match [(); 3].map(|()| words.next()) {
            [Some(w), Some(h), None] => digits(w).zip(digits(h)),
            _ => None,
        }
        .ok_or_else(|| self.wrong(SIZE))
    }

    /// The numbers of the line, behind those that are there.
    fn record(&self, numbers: &mut Vec<i32>) -> Result<(), Failure> {
        let before = numbers.len();
        for word in self.words() {
            let number = word.parse().map_err(|_| self.wrong(NUMBERS))?;
            numbers.push(number);
            if numbers.len() > before + RECORD {
                break;
            }
        }
        match numbers.len() - before {
            RECORD => Ok(()),
            _ => Err(self.wrong(NUMBERS)),
        }
    }
}

/// Reads a text. `due` says of a size what is wrong with it, if anything.
pub fn read(name: &OsStr, due: impl Fn(usize, usize) -> Option<String>) -> Result<Text, Failure> {
    let mut lines = Lines {
        name,
        from: files::open(name)?,
        line: Vec::new(),
        count: 0,
    };
    let (w, h) = lines.size()?;
    if let Some(due) = due(w, h) {
        return Err(lines.wrong(&due));
    }
    let (mut numbers, needed) = (Vec::new(), net_numbers(w, h));
    let mut progress = Progress::of(needed / RECORD, false);
    while needed > 0 && lines.next()? {
        if numbers.len() == needed {
            return Err(lines.wrong(END));
        }
        lines.record(&mut numbers)?;
        progress.done(numbers.len() / RECORD);
    }
    Ok(Text { w, h, numbers })
}

/// Writes a text.
pub fn write(to: &mut Output, (w, h): (usize, usize), numbers: &[i32]) -> Result<(), Failure> {
    to.text(format_args!("{w} {h}\n"))?;
    let mut progress = Progress::of(numbers.len() / RECORD, to.is_terminal());
    for (n, record) in numbers.chunks(RECORD).enumerate() {
        progress.done(n);
        for (n, number) in record.iter().enumerate() {
            let end = if n + 1 < record.len() { ' ' } else { '\n' };
            to.text(format_args!("{number}{end}"))?;
        }
    }
    Ok(())
}
