//! `ups refine`: the net after some steps, and its outline.

use super::{differ, surface_of};
use crate::arguments::Arguments;
use crate::failure::Failure;
use crate::files::{self, Output};
use ups::{file_bytes, lent};

pub fn run(arguments: &Arguments) -> Result<(), Failure> {
    let k = arguments.number("-k")?.unwrap_or(0);
    let out = arguments.word("-o").unwrap_or_default();
    let fine = arguments.word("--fine-outline");
    if fine.is_some() && !arguments.has("--outline") {
        return Err(Failure::usage("--fine-outline needs --outline"));
    }
    differ([Some(out), fine])?;
    let (_, refined) = surface_of(arguments, k)?;
    let (w, h) = (refined.w, refined.h);
    let mut file = vec![0; file_bytes(w, h)];
    lent::write(refined.numbers(), w, h, &mut file)?;
    let Some(fine) = fine else {
        return files::write(out, &file);
    };
    let mut outputs = [Output::create(out)?, Output::create(fine)?];
    let [net, outline] = &mut outputs;
    net.bytes(&file)?;
    outline.bytes(refined.outline().unwrap_or_default())?;
    files::finish(outputs)
}
