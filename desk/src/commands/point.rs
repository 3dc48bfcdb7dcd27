//! `ups point`: one surface point.

use super::outline_of;
use crate::arguments::Arguments;
use crate::failure::Failure;
use crate::files;
use crate::surface::{millimetres, Point};
use std::ffi::OsStr;
use ups::{lent, refined_numbers, refined_triangles, scratch_numbers, triangles};
use ups::{Net, Refusal, POINT};

pub fn run(arguments: &Arguments) -> Result<(), Failure> {
    let p = arguments.operand_number(1, "P")?;
    let q = arguments.operand_number(2, "Q")?;
    let k = arguments.number("-k")?;
    let net = files::net(arguments.operand(0))?;
    let outline = outline_of(arguments)?;
    let point = match k {
        None => point(&net, outline.as_deref(), p, q)?,
        Some(k) => refined_point(&net, outline.as_deref(), k, p, q)?,
    };
    let [x, y, z] = point;
    let line = match arguments.has("--mm") {
        false => format!("{x} {y} {z}\n"),
        true => {
            let [x, y, z] = point.map(millimetres);
            format!("{x} {y} {z}\n")
        }
    };
    files::write(OsStr::new("-"), line.as_bytes())
}

fn point(net: &Net, outline: Option<&[u8]>, p: usize, q: usize) -> Result<Point, Refusal> {
    let (numbers, w, h) = (net.numbers(), net.width(), net.height());
    let mut point = [0; POINT];
    let to = &mut point;
    match outline {
        None => lent::surface_point(numbers, w, h, p, q, to)?,
        Some(outline) => lent::surface_point_outlined(numbers, w, h, outline, p, q, to)?,
    }
    Ok(point)
}

/// The point that has the promise to the cutter.
fn refined_point(
    net: &Net,
    outline: Option<&[u8]>,
    k: usize,
    p: usize,
    q: usize,
) -> Result<Point, Refusal> {
    let (numbers, w, h) = (net.numbers(), net.width(), net.height());
    let out = &mut vec![0; refined_numbers(w, h, k)];
    let by = &mut vec![0; scratch_numbers(w, h, k)];
    let mut point = [0; POINT];
    let to = &mut point;
    match outline {
        None => lent::refined_point(numbers, w, h, k, p, q, out, by, to)?,
        Some(outline) => {
            let fine = &mut vec![0; refined_triangles(w, h, k)];
            let search = &mut vec![0; triangles(w, h)];
            lent::refined_point_outlined(
                numbers, w, h, k, outline, p, q, out, by, fine, search, to,
            )?;
        }
    }
    Ok(point)
}
