//! The examples of the page and the pictures of README, made at the root of the repository.

use crate::running::{accepted, fed};
use std::fs;
use std::path::{Path, PathBuf};
use std::process::{Command, Stdio};

fn root() -> PathBuf {
    Path::new(env!("CARGO_MANIFEST_DIR")).join("..")
}

/// A file of the repository.
fn file(name: &str) -> Vec<u8> {
    let path = root().join(name);
    fs::read(&path).unwrap_or_else(|error| panic!("{}: {error}", path.display()))
}

/// The page of the program.
pub fn text() -> String {
    String::from_utf8(file("docs/PROGRAM.md")).expect("text")
}

/// The program with the words of a line, at the root.
fn command(line: &str) -> Command {
    let mut command = Command::new(env!("CARGO_BIN_EXE_ups"));
    command.args(line.split(' ')).current_dir(root());
    command.stdout(Stdio::piped()).stderr(Stdio::piped());
    command
}

/// An example's line after `$ ups ` and what must be printed.
type Example = (String, String);

/// The blocks in which a line `    $ ups ...` is followed by what it prints.
fn examples(page: &str) -> Vec<Example> {
    let mut found: Vec<Example> = Vec::new();
    let mut inside = false;
    for line in page.lines() {
        if let Some(arguments) = line.strip_prefix("    $ ups ") {
            found.push((arguments.to_owned(), String::new()));
            inside = true;
        } else if let (true, Some(printed)) = (inside, line.strip_prefix("    ")) {
            let (_, text) = found.last_mut().expect("an example");
            *text += &format!("{printed}\n");
        } else {
            inside = false;
        }
    }
    found
}

#[test]
fn the_examples_print_what_the_page_shows() {
    let examples = examples(&text());
    for (arguments, printed) in &examples {
        let output = command(arguments).output().expect("output");
        let found = String::from_utf8(accepted(output, arguments)).expect("text");
        assert_eq!(&found, printed, "ups {arguments}");
    }
    let commands = ["check", "point", "walk", "seam"];
    for command in commands {
        let shown = examples.iter().any(|(line, _)| line.starts_with(command));
        assert!(shown, "no example of {command}");
    }
}

/// Each of its two commands, a pipe of two programs, draws one.
#[test]
fn the_pictures_of_the_readme_are_what_its_commands_draw() {
    let readme = String::from_utf8(file("README.md")).expect("text");
    let lines = readme
        .lines()
        .filter_map(|line| line.strip_prefix("    ups "));
    let pipes: Vec<(&str, &str)> = lines
        .filter_map(|line| line.split_once(" | ups "))
        .collect();
    assert_eq!(pipes.len(), 2);
    for (first, second) in pipes {
        let (second, drawn) = second.rsplit_once(" -o ").expect("an output");
        assert!(
            readme.contains(&format!("]({drawn})")),
            "{drawn} is not shown"
        );
        let net = accepted(command(first).output().expect("output"), first);
        let drawing = fed(command(&format!("{second} -o -")), &net);
        assert!(
            accepted(drawing, second) == file(drawn),
            "{drawn} is another"
        );
    }
}
