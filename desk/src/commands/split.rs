//! `ups split`, `ups merge` and `ups clean`: a net as a coarse net and details.

use super::{differ, write_net};
use crate::arguments::Arguments;
use crate::failure::Failure;
use crate::files::{self, Output};
use crate::text;
use std::ffi::OsStr;
use ups::{lent, refined_numbers, side_after, Net};

pub fn split(arguments: &Arguments) -> Result<(), Failure> {
    let coarse_to = arguments.word("-o").unwrap_or_default();
    let details_to = arguments.word("-d").unwrap_or_default();
    differ([Some(coarse_to), Some(details_to)])?;
    let net = files::net(arguments.operand(0))?;
    let split = net.split()?;
    let mut outputs = [Output::create(coarse_to)?, Output::create(details_to)?];
    let [coarse, details] = &mut outputs;
    coarse.bytes(&split.coarse().to_file()?)?;
    text::write(details, (net.width(), net.height()), split.details())?;
    files::finish(outputs)
}

pub fn merge(arguments: &Arguments) -> Result<(), Failure> {
    let coarse = files::net(arguments.operand(0))?;
    let (w, h) = (coarse.width(), coarse.height());
    let mut out = vec![0; refined_numbers(w, h, 1)];
    let details = match out.is_empty() {
        // The library refuses to refine the coarse net, whatever the details are.
        true => Vec::new(),
        false => details_of(arguments.operand(1), &coarse)?,
    };
    lent::merge(coarse.numbers(), &details, w, h, &mut out)?;
    let net = Net::new(side_after(w, 1), side_after(h, 1), &out)?;
    write_net(arguments, &net)
}

/// The details in a file, which have the size of the refined coarse net.
fn details_of(name: &OsStr, coarse: &Net) -> Result<Vec<i32>, Failure> {
    let [w, h] = [coarse.width(), coarse.height()].map(|side| side_after(side, 1));
    let due = format!("the size of the refined coarse net, {w} {h}, is due");
    let text = text::read(name, |width, height| {
        ((width, height) != (w, h)).then(|| due.clone())
    })?;
    Ok(text.numbers)
}

pub fn clean(arguments: &Arguments) -> Result<(), Failure> {
    let t = arguments.number("-t")?.unwrap_or(0);
    let mut details = text::read(arguments.operand(0), |_, _| None)?;
    let (w, h) = (details.w, details.h);
    let t = u32::try_from(t).unwrap_or(u32::MAX);
    lent::clean(&mut details.numbers, w, h, t)?;
    let mut to = Output::create(arguments.word("-o").unwrap_or_default())?;
    text::write(&mut to, (w, h), &details.numbers)?;
    files::finish([to])
}
