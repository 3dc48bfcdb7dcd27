//! A command line taken apart.

use crate::failure::{shown, Failure};
use crate::files::is_standard;
use crate::line::Line;
use std::ffi::{OsStr, OsString};

/// What follows an option.
#[derive(Clone, Copy, PartialEq, Eq)]
pub enum Takes {
    Nothing,
    Word,
    /// A line of the net: one word, or `row` or `column` and a number.
    Line,
}

/// An option of a command.
pub struct Opt {
    pub name: &'static str,
    pub takes: Takes,
    pub needed: bool,
}

/// What a command takes.
pub struct Usage {
    pub name: &'static str,
    pub operands: &'static [&'static str],
    pub options: &'static [Opt],
}

/// The words of a command line, by what they are.
pub struct Arguments {
    operands: Vec<OsString>,
    options: Vec<(&'static str, Vec<OsString>)>,
}

impl Arguments {
    /// Takes the words after the command's name apart; none where help is asked for.
    pub fn of(usage: &Usage, words: &[OsString]) -> Result<Option<Arguments>, Failure> {
        let mut words = words.iter().cloned();
        let (mut operands, mut options) = (Vec::new(), Vec::new());
        while let Some(word) = words.next() {
            match word.to_str() {
                Some("--help") => return Ok(None),
                Some("--") => operands.extend(words.by_ref()),
                _ if is_option(&word) => options.push(option(usage, &word, &mut words)?),
                _ => operands.push(word),
            }
        }
        let arguments = Arguments { operands, options };
        arguments.check(usage)?;
        Ok(Some(arguments))
    }

    /// Every operand and no more, every option that is needed, none twice, and standard input once.
    fn check(&self, usage: &Usage) -> Result<(), Failure> {
        if let Some(missing) = usage.operands.get(self.operands.len()) {
            return Err(wrong(usage, &format!("{missing} is missing")));
        }
        if let Some(more) = self.operands.get(usage.operands.len()) {
            return Err(wrong(usage, &format!("{} is one too many", shown(more))));
        }
        for option in usage.options {
            let name = option.name;
            match self.options.iter().filter(|(n, _)| *n == name).count() {
                0 if option.needed => return Err(wrong(usage, &format!("{name} is missing"))),
                0 | 1 => (),
                _ => return Err(wrong(usage, &format!("{name} is given twice"))),
            }
        }
        let operands = self.operands.iter().map(|word| word.as_ref());
        let inputs = operands.chain(self.word("--outline"));
        match inputs.filter(|name| is_standard(name)).count() {
            0 | 1 => Ok(()),
            _ => Err(wrong(usage, "standard input is read once")),
        }
    }

    /// An operand, which the command's usage has.
    pub fn operand(&self, n: usize) -> &OsStr {
        self.operands.get(n).map_or(OsStr::new(""), |word| word)
    }

    /// A whole number in an operand's place.
    pub fn operand_number(&self, n: usize, name: &str) -> Result<usize, Failure> {
        number(name, self.operand(n))
    }

    fn words(&self, name: &str) -> Option<&[OsString]> {
        let found = self.options.iter().find(|(n, _)| *n == name);
        found.map(|(_, words)| words.as_slice())
    }

    /// Whether an option is given.
    pub fn has(&self, name: &str) -> bool {
        self.words(name).is_some()
    }

    /// The word of an option, where it is given.
    pub fn word(&self, name: &str) -> Option<&OsStr> {
        self.words(name)?.first().map(|word| word.as_ref())
    }

    /// The whole number of an option, where it is given.
    pub fn number(&self, name: &str) -> Result<Option<usize>, Failure> {
        self.word(name).map(|word| number(name, word)).transpose()
    }

    /// The line that `--along` names; `row J` may be one word or two.
    pub fn along(&self) -> Result<Line, Failure> {
        let words = self.words("--along").unwrap_or_default();
        let text: Vec<&str> = words
            .iter()
            .map(|word| word.to_str().unwrap_or_default())
            .collect();
        let text = text.join(" ");
        let (word, at) = match text.split_once(' ') {
            Some((word, at)) => (word, Some(number(word, OsStr::new(at))?)),
            None => (text.as_str(), None),
        };
        let line = Line::named(word, at);
        line.ok_or_else(|| Failure::usage(format!("--along takes {}", Line::NAMES)))
    }
}

/// Whether a word is an option; `-` is a file.
fn is_option(word: &OsStr) -> bool {
    let bytes = word.as_encoded_bytes();
    bytes.len() > 1 && bytes.starts_with(b"-")
}

/// An option with the words that it takes.
fn option(
    usage: &Usage,
    word: &OsStr,
    rest: &mut impl Iterator<Item = OsString>,
) -> Result<(&'static str, Vec<OsString>), Failure> {
    let text = word.to_str().unwrap_or_default();
    let (name, value) = match text.split_once('=') {
        Some((name, value)) if name.starts_with("--") => (name, Some(OsString::from(value))),
        _ => (text, None),
    };
    let Some(option) = usage.options.iter().find(|option| option.name == name) else {
        let what = format!("there is no option {}", shown(word));
        return Err(wrong(usage, &what));
    };
    if option.takes == Takes::Nothing {
        return match value {
            None => Ok((option.name, Vec::new())),
            Some(_) => Err(wrong(usage, &format!("{name} takes no value"))),
        };
    }
    let missing = || wrong(usage, &format!("{name} needs a value"));
    let first = value.or_else(|| rest.next()).ok_or_else(missing)?;
    let two = option.takes == Takes::Line && (first == "row" || first == "column");
    let mut words = vec![first];
    if two {
        words.push(rest.next().ok_or_else(missing)?);
    }
    Ok((option.name, words))
}

/// A fault of a command line, with where to read on.
fn wrong(usage: &Usage, what: &str) -> Failure {
    let name = usage.name;
    Failure::usage(format!("{what}; `ups {name} --help` tells the usage"))
}

/// Decimal digits; a number beyond the machine's is its greatest, which the library refuses alike.
pub fn number(name: &str, word: &OsStr) -> Result<usize, Failure> {
    let digits = digits(word.to_str().unwrap_or_default());
    digits
        .ok_or_else(|| Failure::usage(format!("{name} takes a whole number, not {}", shown(word))))
}

/// The number of decimal digits, if they are.
pub fn digits(text: &str) -> Option<usize> {
    let all = !text.is_empty() && text.bytes().all(|byte| byte.is_ascii_digit());
    all.then(|| text.parse().unwrap_or(usize::MAX))
}
