//! `ups check`: what a net file is, and what refining it needs.

use super::outline_of;
use crate::arguments::Arguments;
use crate::failure::Failure;
use crate::files::{self, Output};
use crate::surface::millimetres;
use std::ffi::OsStr;
use ups::{file_bytes, refined_numbers, refined_triangles, scratch_numbers, side_after, triangles};
use ups::{lent, Net, GREATEST_DEPTH, POINT};

pub fn run(arguments: &Arguments) -> Result<(), Failure> {
    let net = files::net(arguments.operand(0))?;
    let outline = outline_of(arguments)?;
    let (w, h) = (net.width(), net.height());
    if let Some(outline) = &outline {
        lent::check_outline(outline, w, h, &mut vec![0; triangles(w, h)])?;
    }
    let mut to = Output::create(OsStr::new("-"))?;
    let (count, bytes) = (net.numbers().len(), file_bytes(w, h));
    to.text(format_args!(
        "net {w} by {h}, {count} numbers, {bytes} bytes\n"
    ))?;
    ranges(&net, &mut to)?;
    if let Some(outline) = &outline {
        let all = triangles(w, h);
        let present = outline.iter().take(all).filter(|byte| **byte == 1).count();
        to.text(format_args!(
            "outline of {all} triangles, {present} present\n"
        ))?;
    }
    depths(w, h, outline.is_some(), &mut to)?;
    files::finish([to])
}

/// The least and the greatest control value of each coordinate.
fn ranges(net: &Net, to: &mut Output) -> Result<(), Failure> {
    for (n, name) in ["x", "y", "z"].into_iter().enumerate() {
        let values = || net.numbers().iter().skip(n).step_by(POINT).copied();
        let (least, greatest) = (values().min(), values().max());
        let (least, greatest) = (least.unwrap_or(0), greatest.unwrap_or(0));
        let [from, until] = [least, greatest].map(millimetres);
        let line = format_args!("{name} from {least} to {greatest}, {from} to {until} mm\n");
        to.text(line)?;
    }
    Ok(())
}

/// The lengths that each depth needs which refining accepts.
fn depths(w: usize, h: usize, outlined: bool, to: &mut Output) -> Result<(), Failure> {
    let more = if outlined { " fine search" } else { "" };
    to.text(format_args!("k w h out scratch{more}\n"))?;
    for k in 0..=GREATEST_DEPTH {
        let (out, scratch) = (refined_numbers(w, h, k), scratch_numbers(w, h, k));
        if out == 0 {
            break;
        }
        let (width, height) = (side_after(w, k), side_after(h, k));
        to.text(format_args!("{k} {width} {height} {out} {scratch}"))?;
        if outlined {
            let (fine, search) = (refined_triangles(w, h, k), triangles(w, h));
            to.text(format_args!(" {fine} {search}"))?;
        }
        to.text(format_args!("\n"))?;
    }
    Ok(())
}
