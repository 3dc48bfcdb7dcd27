//! How arguments may be written, and the texts of help and version.

use crate::running::{accepted, Folder};

const COMMANDS: [&str; 12] = [
    "check", "list", "point", "walk", "refine", "seam", "mesh", "picture", "split", "merge",
    "clean", "through",
];

#[test]
fn help_of_every_command() {
    let folder = Folder::new("options-help");
    let help = folder.printed("--help");
    let mut texts = Vec::new();
    for command in COMMANDS {
        assert!(
            help.contains(&format!("ups {command}")),
            "{command} in {help}"
        );
        let text = folder.printed(&format!("{command} --help"));
        assert!(text.contains(&format!("ups {command} ")), "{text}");
        assert!(text.ends_with('\n') && text.lines().count() > 1);
        // An option stands anywhere after the command.
        assert_eq!(folder.printed(&format!("{command} net --help")), text);
        texts.push(text);
    }
    texts.sort();
    texts.dedup();
    assert_eq!(texts.len(), COMMANDS.len(), "two commands with one help");
    assert!(folder.names().is_empty(), "help writes no file");
}

/// The help of a command has the page's line of it.
#[test]
fn help_has_the_lines_of_the_page() {
    let folder = Folder::new("options-page");
    let page = crate::page::text();
    for command in COMMANDS {
        let start = format!("    ups {command} ");
        let line = page.lines().find(|line| line.starts_with(&start));
        let line = line.unwrap_or_else(|| panic!("{command} on the page"));
        let help = folder.printed(&format!("{command} --help"));
        assert!(help.contains(line.trim()), "{help}has no line {line}");
    }
}

#[test]
fn the_version() {
    let folder = Folder::new("options-version");
    let version = folder.printed("--version");
    assert_eq!(version, format!("ups {}\n", env!("CARGO_PKG_VERSION")));
}

#[test]
fn options_stand_anywhere_and_take_values_both_ways() {
    let folder = Folder::new("options-places");
    folder.put_corner("net");
    folder.put("outline", [1, 0]);
    for lines in [
        &[
            "point net 256 512 -k 1 --mm --outline outline",
            "point --mm -k 1 --outline outline net 256 512",
            "point net --outline=outline 256 --mm 512 -k 1",
            "point --outline outline --mm -k 1 -- net 256 512",
            "point net 256 -k 1 --mm --outline=outline -- 512",
            "point net 0256 00512 -k 01 --mm --outline outline",
        ][..],
        &[
            "walk net --along left --step 100",
            "walk --step=100 --along left net",
            "walk --along=left --step 100 -- net",
            "walk --along column 0 net --step 100",
        ],
        &[
            "refine net -k 2 -o -",
            "refine -k 2 -o - net",
            "refine -o - -k 2 -- net",
        ],
    ] {
        let due = folder.bytes(lines[0]);
        assert!(!due.is_empty());
        for line in lines {
            assert!(folder.bytes(line) == due, "{line}");
        }
    }
}

/// After `--` a name may start with a hyphen; a file named `-` is reached by its folder.
#[test]
fn names_that_start_with_a_hyphen() {
    let folder = Folder::new("options-hyphens");
    folder.put_corner("-k");
    folder.put_corner("--help");
    folder.put_corner("-");
    let due = folder.printed("check ./-k");
    assert_eq!(folder.printed("check -- -k"), due);
    assert_eq!(folder.printed("check -- --help"), due);
    assert_eq!(folder.printed("check ./-"), due);
    folder.silent("refine -k 1 -o ./-o -- -k");
    assert_eq!(folder.names(), ["-", "--help", "-k", "-o"]);
}

/// Names with blanks and other signs.
#[test]
fn names_of_all_kinds() {
    let folder = Folder::new("options-names");
    for name in ["a net", "näß", "a=b", "net\nline", "x:y", "<&\">"] {
        folder.put_corner(name);
        let printed = accepted(folder.run(&["check", name]), name);
        assert!(printed.starts_with(b"net 2 by 2, "));
        let output = folder.run(&["refine", name, "-k", "0", "-o", "out"]);
        accepted(output, name);
        assert_eq!(folder.get("out"), folder.get(name));
        let output = folder.run(&["picture", name, "-k", "0", "-o", "out"]);
        accepted(output, name);
        crate::svg::elements(&folder.get("out"));
        // An error with such a name is still one line.
        folder.put(name, b"no net");
        let output = folder.run(&["check", name]);
        crate::running::message(&output, 1, name);
    }
}
