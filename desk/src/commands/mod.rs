//! The commands: what each takes, what its help says and what it does.

pub mod check;
mod help;
pub mod list;
pub mod mesh;
pub mod picture;
pub mod point;
pub mod refine;
pub mod seam;
pub mod split;
pub mod through;
pub mod walk;

use crate::arguments::{Arguments, Opt, Takes, Usage};
use crate::failure::Failure;
use crate::files;
use crate::surface::Surface;
use std::ffi::OsStr;
use ups::Net;

/// A command of the program.
pub struct Command {
    pub usage: Usage,
    /// One line for the list of commands.
    pub says: &'static str,
    pub help: &'static str,
    pub run: fn(&Arguments) -> Result<(), Failure>,
}

const fn option(name: &'static str, takes: Takes, needed: bool) -> Opt {
    Opt {
        name,
        takes,
        needed,
    }
}

const fn needed(name: &'static str) -> Opt {
    option(name, Takes::Word, true)
}

const fn optional(name: &'static str) -> Opt {
    option(name, Takes::Word, false)
}

const OUTLINE: Opt = optional("--outline");
const ALONG: Opt = option("--along", Takes::Line, true);

const fn command(
    name: &'static str,
    operands: &'static [&'static str],
    options: &'static [Opt],
    run: fn(&Arguments) -> Result<(), Failure>,
    [says, help]: [&'static str; 2],
) -> Command {
    let usage = Usage {
        name,
        operands,
        options,
    };
    Command {
        usage,
        says,
        help,
        run,
    }
}

/// All commands, in the order in which they are listed.
pub static COMMANDS: [Command; 12] = [
    command("check", &["FILE"], &[OUTLINE], check::run, help::CHECK),
    command(
        "list",
        &["FILE"],
        &[optional("-k"), OUTLINE],
        list::run,
        help::LIST,
    ),
    command(
        "point",
        &["FILE", "P", "Q"],
        &[
            optional("-k"),
            option("--mm", Takes::Nothing, false),
            OUTLINE,
        ],
        point::run,
        help::POINT,
    ),
    command(
        "walk",
        &["FILE"],
        &[ALONG, optional("-k"), optional("--step"), OUTLINE],
        walk::run,
        help::WALK,
    ),
    command(
        "refine",
        &["FILE"],
        &[
            needed("-k"),
            needed("-o"),
            OUTLINE,
            optional("--fine-outline"),
        ],
        refine::run,
        help::REFINE,
    ),
    command(
        "seam",
        &["FILE"],
        &[needed("-k"), needed("-l"), ALONG, optional("-o"), OUTLINE],
        seam::run,
        help::SEAM,
    ),
    command(
        "mesh",
        &["FILE"],
        &[needed("-k"), needed("-o"), OUTLINE],
        mesh::run,
        help::MESH,
    ),
    command(
        "picture",
        &["FILE"],
        &[
            needed("-o"),
            optional("-k"),
            option("--net", Takes::Nothing, false),
            OUTLINE,
        ],
        picture::run,
        help::PICTURE,
    ),
    command(
        "split",
        &["FILE"],
        &[needed("-o"), needed("-d")],
        split::split,
        help::SPLIT,
    ),
    command(
        "merge",
        &["COARSE", "DETAILS"],
        &[needed("-o")],
        split::merge,
        help::MERGE,
    ),
    command(
        "clean",
        &["DETAILS"],
        &[needed("-t"), needed("-o")],
        split::clean,
        help::CLEAN,
    ),
    command(
        "through",
        &["POINTS"],
        &[needed("-o")],
        through::run,
        help::THROUGH,
    ),
];

/// The outline of `--outline`, where it is given.
fn outline_of(arguments: &Arguments) -> Result<Option<Vec<u8>>, Failure> {
    arguments.word("--outline").map(files::outline).transpose()
}

/// The net of FILE, and its surface after k steps.
fn surface_of(arguments: &Arguments, k: usize) -> Result<(Net, Surface), Failure> {
    let net = files::net(arguments.operand(0))?;
    let outline = outline_of(arguments)?;
    let surface = Surface::refined(&net, outline.as_deref(), k)?;
    Ok((net, surface))
}

/// Two files that are written are not one.
fn differ(names: [Option<&OsStr>; 2]) -> Result<(), Failure> {
    match names {
        [Some(one), Some(two)] if files::same(one, two) => {
            Err(Failure::usage("one file is named for two"))
        }
        _ => Ok(()),
    }
}

/// Writes the net's file to `-o`.
fn write_net(arguments: &Arguments, net: &Net) -> Result<(), Failure> {
    files::write(arguments.word("-o").unwrap_or_default(), &net.to_file()?)
}
