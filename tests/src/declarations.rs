//! The library's declarations, read as text where they stand and compared: the exports in Rattle
//! with the header, the Rust crate and the pages; the lengths of records; the refusals; the
//! version. A text in which nothing is found, or something cannot be read, differs.

mod parse;
mod refusals;

use parse::{Function, Read};
use std::collections::{BTreeMap, BTreeSet};
use std::fmt;
use std::fs;
use std::path::Path;

pub const EXPORTS: &str = "crates/ups/src/lib.rt";
pub const NET_RECORDS: &str = "crates/net/src/records.rt";
pub const DETAIL_RECORDS: &str = "crates/details/src/records.rt";
pub const GIVEN_RECORDS: &str = "crates/hermite/src/records.rt";
pub const HEADER: &str = "include/ups.h";
pub const RAW: &str = "rust/src/raw.rs";
pub const SIZES: &str = "rust/src/size.rs";
pub const REFUSALS: &str = "rust/src/refusal.rs";
pub const README: &str = "README.md";
pub const REFERENCE: &str = "docs/REFERENCE.md";
pub const PACKAGE: &str = "ups.pc.in";
pub const MANIFEST: &str = "rust/Cargo.toml";

pub const FILES: [&str; 12] = [
    EXPORTS,
    NET_RECORDS,
    DETAIL_RECORDS,
    GIVEN_RECORDS,
    HEADER,
    RAW,
    SIZES,
    REFUSALS,
    README,
    REFERENCE,
    PACKAGE,
    MANIFEST,
];

/// The texts that are compared, by file.
pub struct Texts(BTreeMap<&'static str, String>);

impl Texts {
    /// Those of a repository. A file that is not there has an empty text.
    pub fn read(root: &Path) -> Self {
        let text = |file| fs::read_to_string(root.join(file)).unwrap_or_default();
        Texts(FILES.into_iter().map(|file| (file, text(file))).collect())
    }

    pub fn of(&self, file: &'static str) -> &str {
        &self.0[file]
    }

    pub fn with(mut self, file: &'static str, text: String) -> Self {
        self.0.insert(file, text);
        self
    }
}

/// Where and of what two texts differ.
pub struct Difference {
    pub file: &'static str,
    /// The function, the constant or the refusal.
    pub name: String,
    pub what: String,
}

impl fmt::Display for Difference {
    fn fmt(&self, to: &mut fmt::Formatter) -> fmt::Result {
        write!(to, "{}: {}: {}", self.file, self.name, self.what)
    }
}

#[derive(Default)]
struct Report(Vec<Difference>);

impl Report {
    fn add(&mut self, file: &'static str, name: &str, what: impl fmt::Display) {
        self.0.push(Difference {
            file,
            name: name.to_owned(),
            what: what.to_string(),
        });
    }
}

/// All differences between the texts.
pub fn differences(texts: &Texts) -> Vec<Difference> {
    let mut report = Report::default();
    let exports = parse::rattle_functions(texts.of(EXPORTS));
    let exports = known(&mut report, EXPORTS, exports);
    // With themselves, for an export that stands twice and for a text that has none.
    compare_functions(&mut report, EXPORTS, &exports, &exports);
    for (file, read) in [
        (HEADER, parse::c_functions(texts.of(HEADER))),
        (RAW, parse::rust_functions(texts.of(RAW))),
    ] {
        let found = known(&mut report, file, read);
        compare_functions(&mut report, file, &exports, &found);
    }
    compare_readme(&mut report, &exports, texts.of(README));
    compare_reference(&mut report, &exports, texts.of(REFERENCE));
    compare_records(&mut report, texts);
    compare_constants(&mut report, texts);
    refusals::compare(&mut report, texts.of(HEADER), texts.of(REFUSALS));
    compare_versions(&mut report, texts);
    report.0
}

/// The functions that could be read; the others are differences.
fn known(report: &mut Report, file: &'static str, read: Vec<Read>) -> Vec<Function> {
    let mut functions = Vec::new();
    for function in read {
        match function {
            Ok(function) => functions.push(function),
            Err(text) => report.add(file, &text, "cannot be read"),
        }
    }
    functions
}

fn names(functions: &[Function]) -> Vec<&str> {
    functions.iter().map(|one| one.name.as_str()).collect()
}

fn compare_functions(
    report: &mut Report,
    file: &'static str,
    due: &[Function],
    found: &[Function],
) {
    compare_names(report, file, &names(due), &names(found));
    for function in found {
        if let Some(due) = due.iter().find(|due| due.name == function.name) {
            compare_function(report, file, due, function);
        }
    }
}

fn compare_names(report: &mut Report, file: &'static str, due: &[&str], found: &[&str]) {
    if found.is_empty() {
        report.add(file, "exports", "none is found");
    }
    for name in due {
        match found.iter().filter(|other| *other == name).count() {
            0 => report.add(file, name, "is missing"),
            1 => {}
            _ => report.add(file, name, "stands more than once"),
        }
    }
    for name in found.iter().filter(|name| !due.contains(name)) {
        report.add(file, name, format!("is no export of {EXPORTS}"));
    }
}

fn compare_function(report: &mut Report, file: &'static str, due: &Function, found: &Function) {
    let counts = (found.parameters.len(), due.parameters.len());
    if counts.0 != counts.1 {
        let what = format!("has {} parameters, {} are due", counts.0, counts.1);
        report.add(file, &due.name, what);
    }
    for (n, (found, other)) in found.parameters.iter().zip(&due.parameters).enumerate() {
        if found != other {
            let what = format!("parameter {} is `{found}`, due is `{other}`", n + 1);
            report.add(file, &due.name, what);
        }
    }
    if found.result != due.result {
        let what = format!("answers `{}`, due is `{}`", found.result, due.result);
        report.add(file, &due.name, what);
    }
}

/// The table of calls has each export once.
fn compare_readme(report: &mut Report, exports: &[Function], page: &str) {
    let named = column(page, "in the library");
    compare_names(report, README, &names(exports), &named);
}

/// The cells under a heading of a table, without backquotes; empty cells are left out.
fn column<'a>(page: &'a str, heading: &str) -> Vec<&'a str> {
    let cells = |line: &'a str| line.split('|').map(str::trim).collect::<Vec<_>>();
    let mut lines = page.lines();
    let at = lines.find_map(|line| cells(line).iter().position(|cell| *cell == heading));
    let Some(at) = at else { return Vec::new() };
    // The first row is the line under the headings.
    let rows = lines.take_while(|line| line.starts_with('|')).skip(1);
    let column = rows.filter_map(|row| Some(cells(row).get(at)?.trim_matches('`')));
    column.filter(|cell| !cell.is_empty()).collect()
}

fn compare_reference(report: &mut Report, exports: &[Function], page: &str) {
    let apart = |c: char| !c.is_alphanumeric() && c != '_';
    let words: BTreeSet<&str> = page.split(apart).collect();
    for name in names(exports).iter().filter(|name| !words.contains(*name)) {
        report.add(REFERENCE, name, "is not named");
    }
}

/// The kernel's lengths of records, and the ends of their names in the header and in Rust.
const RECORDS: [(&str, &str, &str); 3] = [
    (NET_RECORDS, "STRIDE", "RECORD"),
    (DETAIL_RECORDS, "DETAIL_STRIDE", "DETAIL_RECORD"),
    (GIVEN_RECORDS, "GIVEN_STRIDE", "GIVEN_RECORD"),
];

fn compare_records(report: &mut Report, texts: &Texts) {
    for (kernel, stride, in_rust) in RECORDS {
        let in_c = format!("UPS_{in_rust}");
        let Some(due) = parse::constant(texts.of(kernel), stride) else {
            report.add(kernel, stride, "cannot be read");
            continue;
        };
        for (file, name, found) in [
            (HEADER, &*in_c, parse::defined(texts.of(HEADER), &in_c)),
            (SIZES, in_rust, parse::constant(texts.of(SIZES), in_rust)),
        ] {
            match found {
                None => report.add(file, name, "cannot be read"),
                Some(found) if found == due => {}
                Some(found) => report.add(file, name, format!("is {found}, {stride} is {due}")),
            }
        }
    }
}

/// The ends of the names of the other constants that the header and the Rust crate share.
const CONSTANTS: [&str; 8] = [
    "POINT",
    "SEAM_POINTS",
    "BEZIER",
    "FILE_WORDS",
    "EDGE",
    "LEAST_SIDE",
    "GREATEST_SIDE",
    "GREATEST_DEPTH",
];

fn compare_constants(report: &mut Report, texts: &Texts) {
    for name in CONSTANTS {
        let due = parse::defined(texts.of(HEADER), &format!("UPS_{name}"));
        let found = parse::constant(texts.of(SIZES), name);
        if due.is_none() || found != due {
            let what = format!("is {found:?}, that of {HEADER} is {due:?}");
            report.add(SIZES, name, what);
        }
    }
}

fn compare_versions(report: &mut Report, texts: &Texts) {
    let versions = [(PACKAGE, "Version:"), (MANIFEST, "version =")];
    let [package, manifest] = versions.map(|(file, key)| {
        let version = parse::field(texts.of(file), key);
        if version.is_none() {
            report.add(file, "version", "is not found");
        }
        version
    });
    if package != manifest {
        let what = format!("is {manifest:?}, that of {PACKAGE} is {package:?}");
        report.add(MANIFEST, "version", what);
    }
}
