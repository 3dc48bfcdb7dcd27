//! `ups picture`: the surface drawn at an angle.

use super::outline_of;
use crate::arguments::Arguments;
use crate::failure::Failure;
use crate::files;
use crate::picture;
use crate::surface::Surface;

pub fn run(arguments: &Arguments) -> Result<(), Failure> {
    let k = arguments.number("-k")?;
    let net = files::net(arguments.operand(0))?;
    let outline = outline_of(arguments)?;
    let k = k.unwrap_or_else(|| picture::default_depth(net.width(), net.height()));
    let refined = Surface::refined(&net, outline.as_deref(), k)?;
    let start = Surface::refined(&net, outline.as_deref(), 0)?;
    let drawing = picture::draw(&start, &refined, k, arguments.has("--net"))?;
    files::write(arguments.word("-o").unwrap_or_default(), drawing.as_bytes())
}
