//! `mesh`: the triangles of the three formats against those of the oracle's net.

use crate::mesh_files::{obj, ply, stl, Face, Mesh, Units};
use crate::running::{plate, small_net, Folder, Size, CORNER};
use std::collections::{HashMap, HashSet};
use ups_tests::netfile;
use ups_tests::nets::{self, Numbers};
use ups_tests::oracle::Vertex;
use ups_tests::outlines::{self, Door};
use ups_tests::random::Random;
use ups_tests::refinement;
use ups_tests::shapes;

const NAMES: [&str; 3] = ["mesh.stl", "mesh.ply", "mesh.obj"];

fn read(name: &str, file: &[u8]) -> Mesh {
    match name {
        "mesh.stl" => stl(file),
        "mesh.ply" => ply(file),
        _ => obj(file),
    }
}

/// The corners turned counterclockwise by column and row.
fn counterclockwise([a, b, c]: [Vertex; 3]) -> [Vertex; 3] {
    let (ab, ac) = ((b.0 - a.0, b.1 - a.1), (c.0 - a.0, c.1 - a.1));
    if ab.0 * ac.1 - ab.1 * ac.0 > 0 {
        [a, b, c]
    } else {
        [a, c, b]
    }
}

/// The triangles that are there after k steps, by column and row.
fn grid(size: Size, k: usize, outline: Option<&[u8]>) -> Vec<[Vertex; 3]> {
    let fine = refinement::refined_size(size, k).expect("a size");
    let present = match outline {
        Some(bytes) => Door::new(bytes, size).refined(k),
        None => shapes::full(fine),
    };
    let there = outlines::all(fine)
        .zip(present)
        .filter(|(_, byte)| *byte == 1);
    there.map(|(t, _)| counterclockwise(t.corners())).collect()
}

/// The surface point at a vertex.
fn point(refined: &[i32], size: Size, (i, j): Vertex) -> Units {
    refinement::point_of(refined, size, (1024 * i as usize, 1024 * j as usize))
}

/// Turned in a circle until the least corner is the first.
fn turned<T: Copy + Ord>([a, b, c]: [T; 3]) -> [T; 3] {
    let all = [[a, b, c], [b, c, a], [c, a, b]];
    all.into_iter().min().expect("three")
}

/// The triangles by their points, in order.
fn sorted(triangles: impl Iterator<Item = [Units; 3]>) -> Vec<[Units; 3]> {
    let mut all: Vec<[Units; 3]> = triangles.map(turned).collect();
    all.sort();
    all
}

/// The directed edges, each of which must stand once; the count of those that no other triangle has
/// in the opposite direction.
fn border<T: Copy + Eq + std::hash::Hash>(faces: &[[T; 3]]) -> usize {
    let edges = |&[a, b, c]: &[T; 3]| [(a, b), (b, c), (c, a)];
    let all: HashSet<(T, T)> = faces.iter().flat_map(edges).collect();
    assert_eq!(all.len(), 3 * faces.len(), "an edge twice in one direction");
    all.iter().filter(|(a, b)| !all.contains(&(*b, *a))).count()
}

/// Each vertex is one of a triangle, and each triangle's vertices are there.
fn all_are_used(mesh: &Mesh) {
    let mut used = vec![false; mesh.vertices.len()];
    for &at in mesh.faces.as_flattened() {
        used[at] = true;
    }
    assert!(used.iter().all(|&used| used), "a vertex of no triangle");
}

/// The normal to a triangle with its exact direction, by the right-hand rule; zeros where the
/// triangle has no area.
fn normal([a, b, c]: [Units; 3]) -> [f64; 3] {
    let minus = |b: Units| [0, 1, 2].map(|n| i128::from(b[n]) - i128::from(a[n]));
    let (u, v) = (minus(b), minus(c));
    let cross = [(1, 2), (2, 0), (0, 1)].map(|(m, n)| (u[m] * v[n] - u[n] * v[m]) as f64);
    let length = cross.iter().map(|x| x * x).sum::<f64>().sqrt();
    cross.map(|x| if length == 0.0 { 0.0 } else { x / length })
}

fn check_normals(mesh: &Mesh) {
    for (face, found) in mesh.faces.iter().zip(&mesh.normals) {
        let corners = face.map(|at| mesh.vertices[at]);
        let due = normal(corners);
        let near = |n: usize| (f64::from(found[n]) - due[n]).abs() < 1e-6;
        assert!((0..3).all(near), "{corners:?}: {found:?}, not {due:?}");
        if due == [0.0; 3] {
            assert_eq!(found.map(f32::to_bits), [0; 3]);
        }
    }
}

/// The vertices of PLY and OBJ stand once: as many as the grid's triangles have.
fn check_vertices(mesh: &Mesh, grid: &[[Vertex; 3]]) {
    let due: HashSet<&Vertex> = grid.as_flattened().iter().collect();
    assert_eq!(mesh.vertices.len(), due.len());
    all_are_used(mesh);
    // An edge is inner in the mesh where it is so in the grid.
    assert_eq!(border(&mesh.faces), border(grid));
}

/// A mesh of each format against the triangles of the grid.
fn check(folder: &Folder, refined: &[i32], fine: Size, grid: &[[Vertex; 3]]) {
    let corners = |face: &[Vertex; 3]| face.map(|at| point(refined, fine, at));
    let due = sorted(grid.iter().map(corners));
    for name in NAMES {
        let mesh = read(name, &folder.get(name));
        assert_eq!(mesh.faces.len(), grid.len(), "{name}");
        let found = mesh
            .faces
            .iter()
            .map(|face| face.map(|at| mesh.vertices[at]));
        assert!(sorted(found) == due, "{name}: other triangles");
        match name {
            "mesh.stl" => check_normals(&mesh),
            _ => check_vertices(&mesh, grid),
        }
    }
}

/// Writes the meshes of a net after k steps, and checks them.
fn meshed(folder: &Folder, net: &[i32], size: Size, k: usize, outline: Option<&[u8]>) {
    folder.put_net("net", net, size);
    folder.put("outline", outline.unwrap_or_default());
    let more = outline.map_or("", |_| "--outline outline");
    for name in NAMES {
        folder.silent(&format!("mesh net -k {k} -o {name} {more}"));
    }
    let refined = refinement::refined(net, size, k);
    let fine = refinement::refined_size(size, k).expect("a size");
    check(folder, &refined, fine, &grid(size, k, outline));
}

#[test]
fn the_door_corner() {
    let folder = Folder::new("mesh-corner");
    for k in 0..5 {
        meshed(&folder, &nets::door_corner(120), CORNER, k, None);
        let count = 2 << (2 * k);
        assert_eq!(folder.get("mesh.stl").len(), 84 + 50 * count);
    }
    for half in [[1, 0], [0, 1]] {
        meshed(&folder, &nets::door_corner(-120), CORNER, 2, Some(&half));
    }
    // On standard output the mesh is STL.
    let printed = folder.bytes("mesh net -o - -k 3");
    folder.silent("mesh net -k 3 -o mesh.stl");
    assert!(printed == folder.get("mesh.stl"));
    let line = "mesh - -k 3 -o -";
    let input = netfile::file(&nets::door_corner(-120), CORNER);
    assert_eq!(folder.fed(line, &input).stdout, printed);
}

#[test]
fn random_nets() {
    let folder = Folder::new("mesh-random");
    let mut random = Random::new(351);
    let kinds = [
        Numbers::Tiny,
        Numbers::Large,
        Numbers::Extreme,
        Numbers::Mixed,
    ];
    for round in 0..24 {
        let (net, size) = small_net(&mut random, kinds[round % 4]);
        let k = random.below(3);
        let most = 1 + random.below(12);
        let outline = shapes::grown(&mut random, size, most);
        meshed(&folder, &net, size, k, None);
        meshed(&folder, &net, size, k, Some(&outline));
    }
}

/// The same surface point at a vertex, whatever the format, and each inner edge twice in opposite
/// directions: by the points, which are all different.
#[test]
fn edges_of_a_plate() {
    let folder = Folder::new("mesh-edges");
    let mut random = Random::new(352);
    for (size, k) in [((2, 2), 3), ((5, 3), 1), ((3, 6), 2), ((6, 6), 0)] {
        let net = plate(&mut random, size);
        meshed(&folder, &net, size, k, None);
        let (w, h) = refinement::refined_size(size, k).expect("a size");
        for name in NAMES {
            let mesh = read(name, &folder.get(name));
            let mut numbers = HashMap::new();
            let mut number = |at: usize| {
                let next = numbers.len();
                *numbers.entry(mesh.vertices[at]).or_insert(next)
            };
            let faces: Vec<Face> = mesh.faces.iter().map(|f| f.map(&mut number)).collect();
            assert_eq!(numbers.len(), w * h, "{name}");
            assert_eq!(border(&faces), 2 * (w - 1) + 2 * (h - 1), "{name}");
        }
    }
}

#[test]
fn every_shape_of_door() {
    let folder = Folder::new("mesh-shapes");
    let mut random = Random::new(353);
    let size = (5, 6);
    let net = plate(&mut random, size);
    for (name, outline) in shapes::shapes(size) {
        if name == "ups" {
            folder.put_net("net", &net, size);
            folder.put("outline", &outline);
            let line = "mesh net -k 1 -o other.stl --outline outline";
            folder.refuses(line, 14);
            continue;
        }
        meshed(&folder, &net, size, 1, Some(&outline));
    }
}

/// Triangles without area have a normal of zeros.
#[test]
fn no_area() {
    let folder = Folder::new("mesh-flat");
    for net in [[7; 36], [0; 36], [-16_777_216; 36]] {
        meshed(&folder, &net, CORNER, 2, None);
        let mesh = stl(&folder.get("mesh.stl"));
        assert!(mesh.normals.iter().all(|normal| *normal == [0.0; 3]));
    }
}
