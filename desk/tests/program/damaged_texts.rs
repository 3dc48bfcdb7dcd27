//! Truncated and damaged texts of details and of given points.

use crate::damaged::ended;
use crate::running::{refusal, Folder, Size};
use crate::texts::text;
use std::ffi::OsString;
use ups_tests::changes;
use ups_tests::hermite;
use ups_tests::multiresolution;
use ups_tests::nets::{self, Numbers};
use ups_tests::oracle;
use ups_tests::random::Random;

/// Runs on damaged texts of each kind.
pub const TEXTS: usize = 1_500;

/// What the page says of a text: the first other line, or the size and the numbers, of which lines
/// may be missing at the end.
enum Text {
    Line(usize),
    Numbers(Size, Vec<i32>),
}

/// The size of a line with two words of digits, whatever they are; 0 stands for a side that no net
/// has.
fn size_of(line: &str) -> Option<Size> {
    let mut words = line.split(' ').filter(|word| !word.is_empty());
    let mut side = || {
        let word = words.next()?;
        let digits = word.bytes().all(|byte| byte.is_ascii_digit());
        let side = word.parse().ok().filter(|side| (2..=1025).contains(side));
        digits.then_some(side.unwrap_or(0))
    };
    let size = (side()?, side()?);
    words.next().is_none().then_some(size)
}

/// The nine numbers of a line.
fn vertex_of(line: &str) -> Option<Vec<i32>> {
    let words = line.split(' ').filter(|word| !word.is_empty());
    let numbers: Option<Vec<i32>> = words.map(|word| word.parse().ok()).collect();
    numbers.filter(|numbers| numbers.len() == 9)
}

/// Reads a text of digits, signs, blanks and ends of lines, of a size that a net has; nothing where
/// it is another, of which the page leaves more open.
fn read(bytes: &[u8]) -> Option<Text> {
    let plain = |byte: &u8| byte.is_ascii_digit() || b"- \n".contains(byte);
    let text = std::str::from_utf8(bytes).ok()?;
    if !bytes.iter().all(plain) || bytes.is_empty() {
        return None;
    }
    let mut lines = text.lines();
    let Some((w, h)) = size_of(lines.next()?) else {
        return Some(Text::Line(1));
    };
    if w == 0 || h == 0 {
        return None;
    }
    let mut numbers = Vec::new();
    for (n, line) in lines.enumerate() {
        match vertex_of(line) {
            Some(vertex) if n < w * h => numbers.extend(vertex),
            _ => return Some(Text::Line(n + 2)),
        }
    }
    Some(Text::Numbers((w, h), numbers))
}

/// Changes the text: its lines, its numbers or its bytes.
fn change(random: &mut Random, text: &mut Vec<u8>) {
    let mut lines: Vec<Vec<u8>> = text.split(|&byte| byte == b'\n').map(Vec::from).collect();
    let at = random.below(lines.len());
    let other = random.below(lines.len());
    match random.below(8) {
        0 => drop(lines.remove(at)),
        1 => lines.insert(at, lines[other].clone()),
        2 => lines.swap(at, other),
        3 => lines.truncate(at),
        4 => lines[at].extend(b" 1"),
        5 => {
            let mut words: Vec<&[u8]> = lines[at].split(|&byte| byte == b' ').collect();
            let n = random.below(words.len());
            words[n] = random.pick(&[
                &b"0"[..],
                b"-0",
                b"2147483647",
                b"-2147483648",
                b"2147483648",
                b"33554433",
                b"x",
                b"-",
                b"99999999999999999999",
                b"1.5",
                b"",
                b"\xc3\x28",
                b"16777217",
                b"00012",
            ]);
            lines[at] = words.join(&b' ');
        }
        _ => {
            changes::change(random, text);
            return;
        }
    }
    *text = lines.join(&b'\n');
}

/// Runs a line on a damaged text in `text`; what must be told where the page says it.
fn run(folder: &Folder, names: &[OsString], bytes: &[u8], line: &str) -> i32 {
    folder.put("text", bytes);
    let (status, told) = ended(folder, &folder.ups(line), names, line);
    let number = match read(bytes) {
        None => return status,
        Some(Text::Line(number)) => {
            let start = format!("text: line {number}: ");
            let shown = String::from_utf8_lossy(bytes);
            assert!(told.starts_with(&start), "{line}: {told:?} of {shown}");
            return status;
        }
        Some(Text::Numbers(size, numbers)) if line.starts_with("clean") => {
            oracle::refusal(&multiresolution::clean_faults(&numbers, size, 7))
        }
        Some(Text::Numbers(size, numbers)) => {
            let room = usize::MAX;
            oracle::refusal(&hermite::from_points_faults(&numbers, size, room))
        }
    };
    let due = if number == 0 {
        String::new()
    } else {
        refusal(number)
    };
    assert_eq!(told, due, "{line}: {}", String::from_utf8_lossy(bytes));
    status
}

fn damaged_texts(name: &str, seed: u64, line: &str, make: impl Fn(&mut Random) -> String) {
    let folder = Folder::new(name);
    folder.put("text", "");
    folder.put_corner("corner");
    let names = folder.names();
    let mut random = Random::new(seed);
    let mut seen = [0; 3];
    for round in 0..TEXTS {
        let mut text = make(&mut random).into_bytes();
        for _ in 0..1 + random.below(3) {
            change(&mut random, &mut text);
        }
        if round % 10 == 0 {
            // The same text as the details of the door corner, of which the size may differ.
            folder.put("text", &text);
            let line = "merge corner text -o out";
            ended(&folder, &folder.ups(line), &names, line);
        }
        seen[run(&folder, &names, &text, line) as usize] += 1;
    }
    println!("texts by status: {seen:?}");
    assert!(seen.iter().all(|&count| count > 50), "{seen:?}");
}

#[test]
fn details() {
    let line = "clean text -t 7 -o out";
    damaged_texts("damaged-details", 421, line, |random| {
        let size = random.pick(&[(3, 3), (3, 3), (5, 3), (3, 7)]);
        let details = nets::random_details(random, size, 40_000);
        text(&details, size)
    });
}

#[test]
fn given_points() {
    let line = "through text -o out";
    damaged_texts("damaged-points", 422, line, |random| {
        let size = (2 + random.below(3), 2 + random.below(3));
        let given = nets::random_given(random, size, Numbers::Mixed);
        text(&given, size)
    });
}

/// A text cut at every length.
#[test]
fn cut_texts() {
    let folder = Folder::new("damaged-cut");
    folder.put("text", "");
    let names = folder.names();
    let mut random = Random::new(423);
    let details = nets::random_details(&mut random, (3, 3), 999);
    let whole = text(&details, (3, 3));
    let (mut missing, mut other) = (0, 0);
    for len in 1..whole.len() - 1 {
        match run(
            &folder,
            &names,
            &whole.as_bytes()[..len],
            "clean text -t 7 -o out",
        ) {
            1 => missing += 1,
            2 => other += 1,
            _ => {}
        }
    }
    assert!(missing > 10 && other > 100, "{missing} and {other}");
}
