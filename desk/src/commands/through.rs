//! `ups through`: the net through given points.

use super::write_net;
use crate::arguments::Arguments;
use crate::failure::Failure;
use crate::text;
use ups::Net;

pub fn run(arguments: &Arguments) -> Result<(), Failure> {
    let given = text::read(arguments.operand(0), |_, _| None)?;
    write_net(
        arguments,
        &Net::from_points(given.w, given.h, &given.numbers)?,
    )
}
