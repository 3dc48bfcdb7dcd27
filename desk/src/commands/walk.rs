//! `ups walk`: the points of a line, one after another.

use super::surface_of;
use crate::arguments::Arguments;
use crate::failure::Failure;
use crate::files::{self, Output};
use crate::progress::Progress;
use std::ffi::OsStr;
use ups::{Refusal, EDGE};

pub fn run(arguments: &Arguments) -> Result<(), Failure> {
    let line = arguments.along()?;
    let k = arguments.number("-k")?.unwrap_or(0);
    let step = arguments.number("--step")?.unwrap_or(EDGE);
    if step == 0 {
        return Err(Failure::usage("--step is above 0"));
    }
    let (net, surface) = surface_of(arguments, k)?;
    let course = line.course(net.width(), net.height())?;
    let places = (0..course.length(k) + 1).step_by(step);
    let mut to = Output::create(OsStr::new("-"))?;
    let mut progress = Progress::of(places.len(), to.is_terminal());
    let mut on_door = false;
    for (n, from_end) in places.enumerate() {
        progress.done(n);
        let (p, q) = course.place(k, from_end);
        if surface.holds(p, q) {
            let [x, y, z] = surface.point(p, q)?;
            to.text(format_args!("{p} {q} {x} {y} {z}\n"))?;
            on_door = true;
        }
    }
    drop(progress);
    if !on_door {
        return Err(Refusal::OFF_DOOR.into());
    }
    files::finish([to])
}
