//! The refusals of the header and of the Rust crate.

use super::parse::code;
use super::{Report, HEADER, REFUSALS};
use std::collections::BTreeMap;
use std::fmt;

/// A refusal's number and sentence as they are written; empty where there is none.
#[derive(Default, PartialEq)]
struct Refusal {
    number: String,
    sentence: String,
}

impl fmt::Display for Refusal {
    fn fmt(&self, to: &mut fmt::Formatter) -> fmt::Result {
        write!(to, "{} `{}`", self.number, self.sentence)
    }
}

/// By name, without what the language puts before it.
type Refusals = BTreeMap<String, Refusal>;

/// The name of all numbers that are no refusal.
const OTHER: &str = "other numbers";

/// Numbers, names and sentences are the same in both texts.
pub fn compare(report: &mut Report, header: &str, rust: &str) {
    let (mut due, found) = (in_c(header), in_rust(rust));
    // In Rust a call that is accepted has no refusal.
    match due.remove("ACCEPTED") {
        Some(accepted) if accepted.number == "0" && !accepted.sentence.is_empty() => {}
        _ => report.add(HEADER, "UPS_ACCEPTED", "is not 0, or has no sentence"),
    }
    if !due.keys().any(|name| name != OTHER) {
        report.add(HEADER, "refusals", "none is found");
    }
    for (name, refusal) in &due {
        if refusal.sentence.is_empty() || (refusal.number.is_empty() && name != OTHER) {
            report.add(HEADER, name, "has no number or no sentence");
        }
        match found.get(name) {
            None => report.add(REFUSALS, name, "is missing"),
            Some(other) if other == refusal => {}
            Some(other) => report.add(REFUSALS, name, format!("is {other}, due is {refusal}")),
        }
    }
    for name in found.keys().filter(|name| !due.contains_key(*name)) {
        report.add(HEADER, name, "is missing");
    }
}

/// `enum ups_refusal`, and the cases of `ups_refusal_text`.
fn in_c(text: &str) -> Refusals {
    let code = code(text);
    let entries = code.split("enum ups_refusal {").nth(1).unwrap_or_default();
    let entries = entries.split('}').next().unwrap_or_default().split(',');
    let entries = entries.filter(|entry| !entry.trim().is_empty());
    let numbers = entries.map(|entry| entry.split_once('=').unwrap_or((entry, "")));
    refusals(numbers.collect(), sentences(&code, "return"))
}

/// The constants of `Refusal`, and the arms of the match that displays it.
fn in_rust(text: &str) -> Refusals {
    let code = code(text);
    let numbers = code.split("const ").filter_map(|constant| {
        let (name, value) = constant.split_once(": Refusal = Refusal(")?;
        Some((name, value.split(')').next()?))
    });
    refusals(numbers.collect(), sentences(&code, "=>"))
}

/// The sentence in quotes after each `mark`, by the word before the mark. In Rust a long one stands
/// between braces.
fn sentences<'a>(code: &'a str, mark: &str) -> Vec<(&'a str, String)> {
    let mut found = Vec::new();
    for (at, _) in code.match_indices(mark) {
        let name = code[..at].split_whitespace().last().unwrap_or_default();
        let text = code[at + mark.len()..].trim_start();
        let text = text.strip_prefix('{').unwrap_or(text).trim_start();
        let quoted = text.strip_prefix('"');
        if let Some((sentence, _)) = quoted.and_then(|text| text.split_once('"')) {
            found.push((name, joined(sentence)));
        }
    }
    found
}

/// The lines of a sentence as one: a backslash at the end of a line takes the blanks of the next
/// one with it.
fn joined(sentence: &str) -> String {
    let (first, rest) = sentence.split_once("\\\n").unwrap_or((sentence, ""));
    let rest = rest.split("\\\n").map(str::trim_start);
    rest.fold(first.to_owned(), |whole, line| whole + line)
}

fn refusals(numbers: Vec<(&str, &str)>, sentences: Vec<(&str, String)>) -> Refusals {
    let mut found = Refusals::new();
    for (name, number) in numbers {
        found.entry(plain(name)).or_default().number = number.trim().to_owned();
    }
    for (name, sentence) in sentences {
        found.entry(plain(name)).or_default().sentence = sentence;
    }
    found
}

fn plain(name: &str) -> String {
    let name = name.trim().trim_end_matches(':');
    let name = name
        .trim_start_matches("UPS_")
        .trim_start_matches("Refusal::");
    let other = name == "default" || name == "_";
    if other { OTHER } else { name }.to_owned()
}
