//! `ups mesh`: the surface as a mesh of triangles in millimetres.

use super::surface_of;
use crate::arguments::Arguments;
use crate::failure::{shown, Failure};
use crate::files::{self, Output};
use crate::mesh::Mesh;
use crate::mesh_files::Form;

pub fn run(arguments: &Arguments) -> Result<(), Failure> {
    let k = arguments.number("-k")?.unwrap_or(0);
    let name = arguments.word("-o").unwrap_or_default();
    let Some(form) = Form::of(name) else {
        let what = format!("a mesh ends in .stl, .obj or .ply, not as {}", shown(name));
        return Err(Failure::usage(what));
    };
    let (_, surface) = surface_of(arguments, k)?;
    let mesh = Mesh::of(&surface, 1)?;
    let mut to = Output::create(name)?;
    mesh.write(form, &mut to)?;
    files::finish([to])
}
