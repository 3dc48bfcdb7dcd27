//! The three forms of a mesh file, in millimetres.

use crate::failure::Failure;
use crate::files::Output;
use crate::mesh::Mesh;
use crate::progress::Progress;
use crate::surface::{millimetres, Point};
use std::ffi::OsStr;
use std::io::Stderr;

/// Bytes before the count of triangles in STL.
const STL_HEADER: usize = 80;

/// The form of a mesh file.
#[derive(Clone, Copy, Debug, PartialEq, Eq)]
pub enum Form {
    Stl,
    Obj,
    Ply,
}

impl Form {
    /// The form by the end of a name; standard output gets STL.
    pub fn of(name: &OsStr) -> Option<Form> {
        let name = name.to_string_lossy().to_lowercase();
        let forms = [
            (".stl", Form::Stl),
            (".obj", Form::Obj),
            (".ply", Form::Ply),
        ];
        match name.as_str() {
            "-" => Some(Form::Stl),
            name => forms
                .into_iter()
                .find(|(end, _)| name.ends_with(end))
                .map(|(_, form)| form),
        }
    }
}

impl Mesh {
    /// Writes the mesh.
    pub fn write(&self, form: Form, to: &mut Output) -> Result<(), Failure> {
        let count = self.points.len() + self.triangles.len();
        let mut progress = Progress::of(count, to.is_terminal());
        match form {
            Form::Stl => self.write_stl(to, &mut progress),
            Form::Obj => self.write_obj(to, &mut progress),
            Form::Ply => self.write_ply(to, &mut progress),
        }
    }

    fn corners(&self, triangle: &[u32; 3]) -> [Point; 3] {
        triangle.map(|n| self.points[n as usize])
    }

    fn write_stl(&self, to: &mut Output, progress: &mut Progress<Stderr>) -> Result<(), Failure> {
        // Readers take a file that begins with `solid` for text.
        let mut header = [b' '; STL_HEADER];
        let says = b"binary STL, millimetres";
        header[..says.len()].copy_from_slice(says);
        to.bytes(&header)?;
        to.bytes(&(self.triangles.len() as u32).to_le_bytes())?;
        for (n, triangle) in self.triangles.iter().enumerate() {
            progress.done(self.points.len() + n);
            let corners = self.corners(triangle);
            to.bytes(normal(corners).map(f32::to_le_bytes).as_flattened())?;
            for corner in corners {
                to.bytes(corner.map(single).map(f32::to_le_bytes).as_flattened())?;
            }
            to.bytes(&[0; 2])?;
        }
        Ok(())
    }

    fn write_obj(&self, to: &mut Output, progress: &mut Progress<Stderr>) -> Result<(), Failure> {
        to.text(format_args!("# millimetres\n"))?;
        for (n, point) in self.points.iter().enumerate() {
            progress.done(n);
            let [x, y, z] = point.map(millimetres);
            to.text(format_args!("v {x} {y} {z}\n"))?;
        }
        for (n, triangle) in self.triangles.iter().enumerate() {
            progress.done(self.points.len() + n);
            // Its vertices count from 1.
            let [a, b, c] = triangle.map(|point| point + 1);
            to.text(format_args!("f {a} {b} {c}\n"))?;
        }
        Ok(())
    }

    fn write_ply(&self, to: &mut Output, progress: &mut Progress<Stderr>) -> Result<(), Failure> {
        let (points, triangles) = (self.points.len(), self.triangles.len());
        to.text(format_args!(
            "ply\nformat binary_little_endian 1.0\ncomment millimetres\n\
             element vertex {points}\nproperty float x\nproperty float y\nproperty float z\n\
             element face {triangles}\nproperty list uchar int vertex_indices\nend_header\n"
        ))?;
        for (n, point) in self.points.iter().enumerate() {
            progress.done(n);
            to.bytes(point.map(single).map(f32::to_le_bytes).as_flattened())?;
        }
        for (n, triangle) in self.triangles.iter().enumerate() {
            progress.done(self.points.len() + n);
            to.bytes(&[triangle.len() as u8])?;
            to.bytes(triangle.map(u32::to_le_bytes).as_flattened())?;
        }
        Ok(())
    }
}

/// A coordinate in millimetres: exact, since its size is at most 2^24 units.
fn single(units: i32) -> f32 {
    units as f32 / 1024.0
}

/// The unit vector that a triangle's corners turn about counterclockwise; 0 of one without area.
fn normal([a, b, c]: [Point; 3]) -> [f32; 3] {
    let minus = |p: Point| [0, 1, 2].map(|n| i64::from(p[n]) - i64::from(a[n]));
    let (b, c) = (minus(b), minus(c));
    // Exact: differences are at most 2^25 in size.
    let cross = [(1, 2), (2, 0), (0, 1)].map(|(m, n)| (b[m] * c[n] - b[n] * c[m]) as f64);
    let length = cross.map(|x| x * x).iter().sum::<f64>().sqrt();
    match length > 0.0 {
        true => cross.map(|x| (x / length) as f32),
        false => [0.0; 3],
    }
}
