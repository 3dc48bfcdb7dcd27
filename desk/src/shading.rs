//! How bright the facets of a door are, and in which order they are drawn.

use crate::mesh::Mesh;
use crate::surface::millimetres;
use crate::view::{dot, normal, plus, Triangle, Vector, View};

/// Where the light comes from: above, from the left, rather along the door than at it, so that a
/// low relief shows. A weaker light comes from the viewer, and some from everywhere.
const LIGHT: Vector = [-0.55, 0.6, 0.58];
const FROM_LIGHT: f64 = 0.6;
const FROM_VIEWER: f64 = 0.28;
const AMBIENT: f64 = 0.12;
/// The range of brightness that a low relief is brought to, at most so many times its own.
const SPREAD: f64 = 0.6;
const MOST_SPREAD: f64 = 4.0;
/// The colours of a facet with brightness 0 and 1.
const DARKEST: Vector = [6.0, 46.0, 90.0];
const LIGHTEST: Vector = [218.0, 241.0, 252.0];

/// A facet as it is seen.
pub struct Facet {
    nearness: f64,
    /// From 0 to 1.
    brightness: f64,
    pub corners: Triangle,
}

/// The facets of a mesh as they are seen, the nearest last.
pub fn seen(mesh: &Mesh, view: &View) -> Vec<Facet> {
    let points: Vec<Vector> = mesh
        .points
        .iter()
        .map(|point| point.map(millimetres))
        .collect();
    let normals = normals(mesh, &points);
    let facet = |facet: &[u32; 3]| {
        let corners = facet.map(|n| points[n as usize]);
        let around = facet.map(|n| normals[n as usize]);
        let around = around.into_iter().fold([0.0; 3], plus);
        Facet {
            nearness: view.nearness(&corners),
            brightness: brightness(view, normal(&corners), around),
            corners,
        }
    };
    let mut facets: Vec<Facet> = mesh.triangles.iter().map(facet).collect();
    facets.sort_by(|a, b| a.nearness.total_cmp(&b.nearness));
    facets
}

/// For each point the sum of the normals of its facets, which are as long as these are large.
fn normals(mesh: &Mesh, points: &[Vector]) -> Vec<Vector> {
    let mut normals = vec![[0.0; 3]; points.len()];
    for facet in &mesh.triangles {
        let normal = normal(&facet.map(|n| points[n as usize]));
        for n in facet {
            let sum = &mut normals[*n as usize];
            *sum = plus(*sum, normal);
        }
    }
    normals
}

/// The brightness of a facet, from 0 to 1: of the side of it that is seen, which its normal
/// tells, but by the sum of the normals around it, since by its own alone the rounding to
/// units would show as spots where facets are small.
fn brightness(view: &View, normal: Vector, around: Vector) -> f64 {
    let length = dot(around, around).sqrt();
    let unit = match length > 0.0 {
        true => around.map(|x| x / length),
        false => [0.0, 0.0, 1.0],
    };
    let side = match dot(normal, view.towards) < 0.0 {
        true => -1.0,
        false => 1.0,
    };
    let light = side * dot(unit, LIGHT) / dot(LIGHT, LIGHT).sqrt();
    let viewer = side * dot(unit, view.towards);
    AMBIENT + FROM_LIGHT * light.max(0.0) + FROM_VIEWER * viewer.max(0.0)
}

/// How the brightness of a low relief is spread, around its middle.
pub struct Contrast {
    middle: f64,
    factor: f64,
}

impl Contrast {
    pub fn of(facets: &[Facet]) -> Contrast {
        let all = || facets.iter().map(|facet| facet.brightness);
        let (low, high) = (all().fold(1.0, f64::min), all().fold(0.0, f64::max));
        Contrast {
            middle: (low + high) / 2.0,
            // Where the relief has no range, the greatest factor, which then has no effect.
            factor: (SPREAD / (high - low).max(0.0)).clamp(1.0, MOST_SPREAD),
        }
    }

    /// The colour of a facet.
    pub fn colour(&self, facet: &Facet) -> String {
        let spread = self.factor * (facet.brightness - self.middle);
        colour((self.middle + spread).clamp(0.0, 1.0))
    }
}

fn colour(by: f64) -> String {
    let mix = |dark: f64, light: f64| (dark + (light - dark) * by).round() as u8;
    let ([r, g, b], [r1, g1, b1]) = (DARKEST, LIGHTEST);
    format!("#{:02x}{:02x}{:02x}", mix(r, r1), mix(g, g1), mix(b, b1))
}
