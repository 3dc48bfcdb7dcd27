//! The declarations in the repository agree, and each way in which they could disagree is found.

use std::collections::BTreeSet;
use std::path::Path;
use ups_tests::declarations::{
    differences, Difference, Texts, DETAIL_RECORDS, EXPORTS, FILES, GIVEN_RECORDS, HEADER,
    MANIFEST, NET_RECORDS, PACKAGE, RAW, README, REFERENCE, REFUSALS, SIZES,
};

/// Where signatures stand, what is before a function's name there, and where a change is seen: the
/// others are held to the exports.
const PLACES: [(&str, &str, &[&str]); 3] = [
    (EXPORTS, "pub extern \"C\" fn ", &[HEADER, RAW]),
    (HEADER, "uint32_t ", &[HEADER]),
    (RAW, "pub fn ", &[RAW]),
];
/// The function whose signature is changed.
const POINT: &str = "ups_surface_point";

fn repository() -> Texts {
    Texts::read(&Path::new(env!("CARGO_MANIFEST_DIR")).join(".."))
}

/// The repository with `to` for the first `from` of a file.
fn changed(file: &'static str, from: &str, to: &str) -> Texts {
    let texts = repository();
    assert!(texts.of(file).contains(from), "{file}: no `{from}`");
    let text = texts.of(file).replacen(from, to, 1);
    texts.with(file, text)
}

/// The first piece of a file that begins with `from`, to the end of the next `to`.
fn piece(file: &'static str, from: &str, to: &str) -> String {
    let texts = repository();
    let at = texts.of(file).find(from);
    let rest = &texts.of(file)[at.unwrap_or_else(|| panic!("{file}: no `{from}`"))..];
    rest[..rest.find(to).expect(to) + to.len()].to_owned()
}

fn lines(found: &[Difference]) -> String {
    found
        .iter()
        .map(|difference| format!("\n{difference}"))
        .collect()
}

/// All differences are of this name and in these files, and each file has one with these words.
fn expect(texts: &Texts, files: &[&str], name: &str, what: &str) {
    let found = differences(texts);
    let said = found.iter().filter(|found| found.what.contains(what));
    let said: BTreeSet<&str> = said.map(|found| found.file).collect();
    assert_eq!(
        said,
        files.iter().copied().collect(),
        "{what}: {}",
        lines(&found)
    );
    let due = |found: &Difference| found.name == name && files.contains(&found.file);
    assert!(found.iter().all(due), "{what}: {}", lines(&found));
}

#[test]
fn the_repository_has_no_difference() {
    let found = differences(&repository());
    assert!(found.is_empty(), "{}", lines(&found));
}

/// A change of a list of parameters, each of them a text.
type Change = fn(&mut Vec<String>);

/// The position of a parameter.
fn at(parameters: &[String], name: &str) -> usize {
    let named = |text: &str| text.split([' ', '*', ':', '\n']).any(|word| word == name);
    parameters.iter().position(|text| named(text)).expect(name)
}

/// Changes `POINT` at every place.
fn expect_at_each_place(change: Change, what: &str) {
    for (file, before, seen) in PLACES {
        let whole = piece(file, &format!("{before}{POINT}("), ")");
        let mut parameters: Vec<String> = whole.split(',').map(str::to_owned).collect();
        change(&mut parameters);
        expect(
            &changed(file, &whole, &parameters.join(",")),
            seen,
            POINT,
            what,
        );
    }
}

#[test]
fn a_changed_type_is_found() {
    let other_type: Change = |all| {
        let q = at(all, "q");
        all[q] = all[q].replace("usize", "u32").replace("size_t", "uint32_t");
    };
    expect_at_each_place(other_type, "parameter 6 is `q: u");
}

#[test]
fn a_changed_element_is_found() {
    let other_element: Change = |all| {
        let out = at(all, "out");
        let text = all[out]
            .replace("[i32]", "[u32]")
            .replace("mut i32", "mut u32");
        all[out] = text.replace("int32_t", "uint32_t");
    };
    expect_at_each_place(other_element, "parameter 7 is `out: *mut ");
}

#[test]
fn exchanged_parameters_are_found() {
    let exchanged: Change = |all| {
        let (p, q) = (at(all, "p"), at(all, "q"));
        all.swap(p, q);
    };
    expect_at_each_place(exchanged, "parameter 5 is ");
    expect_at_each_place(exchanged, "parameter 6 is ");
}

#[test]
fn a_renamed_parameter_is_found() {
    let renamed: Change = |all| {
        let q = at(all, "q");
        all[q] = all[q].replace('q', "r");
    };
    expect_at_each_place(renamed, "parameter 6 is ");
}

#[test]
fn a_parameter_more_or_less_is_found() {
    let fewer: Change = |all| {
        all.remove(at(all, "q"));
    };
    expect_at_each_place(fewer, "parameters, ");
    let more: Change = |all| {
        let q = at(all, "q");
        all.insert(q, all[q].replace('q', "r"));
    };
    expect_at_each_place(more, "parameters, ");
}

#[test]
fn a_slice_that_is_only_read_is_found() {
    let read: Change = |all| {
        let out = at(all, "out");
        let text = all[out].replace("&mut ", "&").replace("*mut", "*const");
        all[out] = text.replace("int32_t", "const int32_t");
    };
    expect_at_each_place(read, "parameter 7 is `out: *");
}

#[test]
fn another_result_is_found() {
    for (file, before, seen) in PLACES {
        let end = if file == HEADER { "(" } else { "-> u32" };
        let whole = piece(file, &format!("{before}{POINT}("), end);
        let other = whole
            .replace("-> u32", "-> u64")
            .replace("uint32_t", "uint64_t");
        expect(&changed(file, &whole, &other), seen, POINT, "answers ");
    }
}

#[test]
fn a_missing_export_is_found() {
    for (file, before, seen) in PLACES {
        let end = if file == EXPORTS { "{" } else { ";" };
        let whole = piece(file, &format!("{before}ups_merge("), end);
        let texts = changed(file, &whole, "");
        match file {
            EXPORTS => expect(
                &texts,
                &[HEADER, RAW, README],
                "ups_merge",
                "is no export of ",
            ),
            _ => expect(&texts, seen, "ups_merge", "is missing"),
        }
        let twice = changed(file, &whole, &format!("{whole} {whole}"));
        expect(&twice, &[file], "ups_merge", "stands more than once");
    }
}

#[test]
fn an_added_export_is_found() {
    for (file, before, seen) in PLACES {
        let more = match file {
            HEADER => "uint32_t ups_more(uint32_t t);".to_owned(),
            _ => format!("{before}ups_more(t: u32) -> u32;"),
        };
        let head = format!("{before}ups_merge(");
        let texts = changed(file, &head, &format!("{more} {head}"));
        match file {
            EXPORTS => expect(&texts, &[HEADER, RAW, README, REFERENCE], "ups_more", "is "),
            _ => expect(&texts, seen, "ups_more", "is no export of "),
        }
    }
}

#[test]
fn a_signature_that_cannot_be_read_is_found() {
    for (file, before, _) in PLACES {
        let whole = piece(file, &format!("{before}{POINT}("), ")");
        for broken in [whole.replace(')', ", rest)"), whole.replace('(', " = ")] {
            let found = differences(&changed(file, &whole, &broken));
            let unread = |found: &Difference| found.file == file && found.what == "cannot be read";
            assert!(
                found.iter().any(unread),
                "{file}: {broken}{}",
                lines(&found)
            );
        }
    }
}

#[test]
fn a_text_in_which_nothing_is_found_differs() {
    for file in FILES {
        let found = differences(&repository().with(file, String::new()));
        assert!(
            found.iter().any(|found| found.file == file),
            "{file}: {}",
            lines(&found)
        );
    }
}

#[test]
fn a_changed_record_is_found() {
    for (kernel, name) in [
        (NET_RECORDS, "RECORD"),
        (DETAIL_RECORDS, "DETAIL_RECORD"),
        (GIVEN_RECORDS, "GIVEN_RECORD"),
    ] {
        let in_c = format!("UPS_{name}");
        let found = differences(&changed(kernel, "usize = 3;", "usize = 4;"));
        let names: Vec<&str> = found.iter().map(|found| found.name.as_str()).collect();
        assert_eq!(names, [&in_c, name], "{}", lines(&found));
        let texts = changed(HEADER, &format!("{in_c} 9\n"), &format!("{in_c} 4 * 3\n"));
        expect(&texts, &[HEADER], &in_c, "is 12, ");
        let texts = changed(
            SIZES,
            &format!(" {name}: usize = 9"),
            &format!(" {name}: usize = 12"),
        );
        expect(&texts, &[SIZES], name, "is 12, ");
    }
}

#[test]
fn a_changed_constant_is_found() {
    for (file, from, to) in [
        (HEADER, "UPS_EDGE 1024", "UPS_EDGE 512"),
        (HEADER, "#define UPS_EDGE 1024", ""),
        (SIZES, "EDGE: usize = 1024", "EDGE: usize = 512"),
        (SIZES, "pub const EDGE: usize = 1024;", ""),
    ] {
        expect(&changed(file, from, to), &[SIZES], "EDGE", "that of ");
    }
}

#[test]
fn a_changed_refusal_is_found() {
    for file in [HEADER, REFUSALS] {
        let texts = changed(file, "is beyond its range", "is out of range");
        expect(&texts, &[REFUSALS], "RANGE", "is beyond its range");
        let texts = changed(file, "not a refusal of", "no refusal of");
        expect(&texts, &[REFUSALS], "other numbers", "not a refusal of");
    }
    // The second line of a sentence.
    let texts = changed(REFUSALS, " needs\"", " need\"");
    expect(&texts, &[REFUSALS], "SHORT", "than the size needs`");
    let texts = changed(HEADER, "UPS_EVEN = 10", "UPS_EVEN = 99");
    expect(&texts, &[REFUSALS], "EVEN", "due is 99 ");
    let texts = changed(REFUSALS, "Refusal(10)", "Refusal(99)");
    expect(&texts, &[REFUSALS], "EVEN", "is 99 ");
    let texts = changed(HEADER, "UPS_ACCEPTED = 0", "UPS_ACCEPTED = 99");
    expect(&texts, &[HEADER], "UPS_ACCEPTED", "is not 0");
}

#[test]
fn a_missing_refusal_is_found() {
    for (file, from, to) in [
        (HEADER, "UPS_EVEN =", ","),
        (HEADER, "case UPS_EVEN:", ";"),
        (REFUSALS, "pub const EVEN:", ";"),
        (REFUSALS, "Refusal::EVEN =>", ","),
    ] {
        let found = differences(&changed(file, &piece(file, from, to), ""));
        let due = |found: &Difference| found.name == "EVEN";
        assert!(found.iter().all(due), "{from}: {}", lines(&found));
        assert!(
            found.iter().any(|found| found.file == file),
            "{from}: {}",
            lines(&found)
        );
    }
}

#[test]
fn a_call_that_a_page_lacks_is_found() {
    let texts = changed(README, "| `ups_clean` |", "| |");
    expect(&texts, &[README], "ups_clean", "is missing");
    let texts = changed(README, "| `ups_clean` |", "| `ups_cleans` |");
    let found = differences(&texts);
    assert_eq!(found.len(), 2, "one missing, one added: {}", lines(&found));
    let page = repository()
        .of(REFERENCE)
        .replace("ups_clean", "ups_cleans");
    let texts = repository().with(REFERENCE, page);
    expect(&texts, &[REFERENCE], "ups_clean", "is not named");
}

#[test]
fn another_version_is_found() {
    for (file, before) in [(PACKAGE, "Version: "), (MANIFEST, "version = \"")] {
        let texts = changed(file, before, &format!("{before}1"));
        expect(&texts, &[MANIFEST], "version", "that of ups.pc.in is ");
    }
}
