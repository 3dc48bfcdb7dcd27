//! `ups list`: the surface points of the vertices of the refined net.

use super::surface_of;
use crate::arguments::Arguments;
use crate::failure::Failure;
use crate::files::{self, Output};
use crate::progress::Progress;
use std::ffi::OsStr;
use ups::EDGE;

/// The steps of the listing program.
const STEPS: usize = 1;

pub fn run(arguments: &Arguments) -> Result<(), Failure> {
    let k = arguments.number("-k")?.unwrap_or(STEPS);
    let (_, surface) = surface_of(arguments, k)?;
    let mut to = Output::create(OsStr::new("-"))?;
    let (w, h) = (surface.w, surface.h);
    let mut progress = Progress::of(w * h, to.is_terminal());
    to.text(format_args!("net {w} {h}\n"))?;
    for n in 0..w * h {
        progress.done(n);
        let (i, j) = (n % w, n / w);
        if surface.holds(EDGE * i, EDGE * j) {
            let [x, y, z] = surface.vertex(i, j)?;
            to.text(format_args!("{i} {j} {x} {y} {z}\n"))?;
        }
    }
    drop(progress);
    files::finish([to])
}
