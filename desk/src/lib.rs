//! The program `ups`: net files checked, listed, refined, meshed and drawn, over the crate `ups`.
//! Points, refined nets, splits and refusals are the library's, which is proved; what is here is
//! tested and not proved.
//!
//! `docs/PROGRAM.md` of the repository says what each command takes and gives. `arguments` takes a
//! command line apart, `commands` has a module for each command, `files` and `text` read and write,
//! `surface` asks the library for points, `line` has those of a row or column and `mesh` those of
//! triangles, which `mesh_files` writes. `picture` draws a door, with its `view`, `shading` and
//! `axes`, and `seam_drawing` a seam, both as `svg`. `failure` is what ends a command early, and
//! `progress` tells of long work.

#![deny(unsafe_code)]

pub mod arguments;
pub mod axes;
pub mod commands;
pub mod failure;
pub mod files;
pub mod line;
pub mod mesh;
pub mod mesh_files;
pub mod picture;
pub mod progress;
pub mod seam_drawing;
pub mod shading;
pub mod surface;
pub mod svg;
pub mod text;
pub mod view;

use arguments::Arguments;
use commands::{Command, COMMANDS};
use failure::{shown, Failure};
use std::env;
use std::ffi::{OsStr, OsString};
use std::io::{self, Write};
use std::process::ExitCode;

/// Runs the program on its arguments.
pub fn main() -> ExitCode {
    progress::begin();
    let words: Vec<OsString> = env::args_os().skip(1).collect();
    match run(&words) {
        Ok(()) => ExitCode::SUCCESS,
        Err(failure) => {
            // There is nowhere else to tell it.
            let _ = writeln!(io::stderr(), "ups: {failure}");
            ExitCode::from(failure.status())
        }
    }
}

fn run(words: &[OsString]) -> Result<(), Failure> {
    let Some((name, rest)) = words.split_first() else {
        return Err(Failure::usage(
            "a command is missing; `ups --help` lists them",
        ));
    };
    match name.to_str() {
        Some("--help") => return say(&help()),
        Some("--version") => return say(concat!("ups ", env!("CARGO_PKG_VERSION"), "\n")),
        _ => (),
    }
    let Some(command) = COMMANDS.iter().find(|command| name == command.usage.name) else {
        let what = format!("there is no command {}", shown(name));
        return Err(Failure::usage(what + "; `ups --help` lists them"));
    };
    match Arguments::of(&command.usage, rest)? {
        None => say(command.help),
        Some(arguments) => (command.run)(&arguments),
    }
}

fn say(text: &str) -> Result<(), Failure> {
    files::write(OsStr::new("-"), text.as_bytes())
}

/// The list of commands.
fn help() -> String {
    let line = |c: &Command| format!("  ups {:<8} {}\n", c.usage.name, c.says);
    let commands: String = COMMANDS.iter().map(line).collect();
    format!(
        "Net files of uniform Powell-Sabin surfaces, looked at, refined, meshed and drawn.\n\n\
         {commands}\n\
         `ups COMMAND --help` explains a command, and - is standard input or output.\n\
         Status 0: accepted; 1: refused, with the number of the first fault; 2: wrong usage, or a\n\
         file that cannot be read or written.\n"
    )
}
