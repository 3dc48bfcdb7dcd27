//! The picture shows the surface itself: one affine map, found from the corners of the net, leads
//! from the surface points to the drawn facets and from the control points to the drawn control
//! triangles.

use crate::running::{plate, Folder, Size};
use crate::svg::{elements, of_class, Point};
use std::collections::HashMap;
use ups_tests::outlines;
use ups_tests::random::Random;
use ups_tests::refinement;

type Space = [i32; 3];

/// How far a drawn point may be from its place: the drawing is rounded, and the map with it.
const NEAR: f64 = 0.3;

/// The factors of x, y, z and 1 for both coordinates of the drawing.
struct Map {
    factors: [[f64; 4]; 2],
}

impl Map {
    /// The map that leads from four points, not of one plane, to four drawn ones.
    fn of(from: [Space; 4], to: [Point; 4]) -> Map {
        let mut rows = [0, 1, 2, 3].map(|n| {
            let [x, y, z] = from[n].map(f64::from);
            [x, y, z, 1.0, to[n][0], to[n][1]]
        });
        for column in 0..4 {
            let size = |row: &usize| rows[*row][column].abs();
            let pivot = (column..4).max_by(|a, b| size(a).total_cmp(&size(b)));
            rows.swap(column, pivot.expect("a row"));
            let divisor = rows[column][column];
            assert!(divisor.abs() > 1e-9, "four points of one plane");
            rows[column] = rows[column].map(|x| x / divisor);
            let pivot = rows[column];
            let others = rows.iter_mut().enumerate().filter(|(n, _)| *n != column);
            for (_, row) in others {
                let factor = row[column];
                for (x, by) in row.iter_mut().zip(pivot) {
                    *x -= factor * by;
                }
            }
        }
        let factors = [4, 5].map(|side| rows.map(|row| row[side]));
        Map { factors }
    }

    fn apply(&self, point: Space) -> Point {
        let [x, y, z] = point.map(f64::from);
        self.factors.map(|[a, b, c, d]| a * x + b * y + c * z + d)
    }

    fn near(&self, point: Space, drawn: Point) -> bool {
        let due = self.apply(point);
        (due[0] - drawn[0]).abs() < NEAR && (due[1] - drawn[1]).abs() < NEAR
    }

    /// Whether each triangle is drawn once: its corners in any order.
    fn matches(&self, triangles: &[[Space; 3]], drawn: &[Vec<Point>]) -> bool {
        let mut left: Vec<&Vec<Point>> = drawn.iter().collect();
        for triangle in triangles {
            let is = |points: &&Vec<Point>| {
                let found = |&corner: &Space| points.iter().any(|&at| self.near(corner, at));
                triangle.iter().all(found)
            };
            let Some(at) = left.iter().position(is) else {
                return false;
            };
            left.swap_remove(at);
        }
        left.is_empty()
    }
}

/// The drawn points by the count of facets that have them. Two have one facet, the first vertex and
/// the last.
fn by_count(facets: &[Vec<Point>]) -> HashMap<usize, Vec<Point>> {
    let mut counts: HashMap<[u64; 2], usize> = HashMap::new();
    for point in facets.iter().flatten() {
        *counts.entry(point.map(f64::to_bits)).or_default() += 1;
    }
    let mut points: HashMap<usize, Vec<Point>> = HashMap::new();
    for (point, count) in counts {
        points
            .entry(count)
            .or_default()
            .push(point.map(f64::from_bits));
    }
    points
}

/// The maps that put the corners of a net onto drawn points with as many facets: one facet at the
/// first and at the last vertex, two at the other two.
fn candidates(corners: [Space; 4], facets: &[Vec<Point>]) -> Vec<Map> {
    let points = by_count(facets);
    let (ones, twos) = (&points[&1], &points[&2]);
    assert_eq!((ones.len(), twos.len()), (2, 2));
    let mut maps = Vec::new();
    for (a, d) in [(0, 1), (1, 0)] {
        for (b, c) in [(0, 1), (1, 0)] {
            let drawn = [ones[a], twos[b], twos[c], ones[d]];
            maps.push(Map::of(corners, drawn));
        }
    }
    maps
}

fn check(folder: &Folder, net: &[i32], size: Size, k: usize) {
    folder.put_net("net", net, size);
    folder.silent(&format!("picture net -o out --net -k {k}"));
    let all = elements(&folder.get("out"));
    let drawn = |class| -> Vec<Vec<Point>> {
        let shapes = of_class(&all, class);
        shapes.iter().map(|shape| shape.points()).collect()
    };
    let (facets, controls) = (drawn("f"), drawn("c"));
    let refined = refinement::refined(net, size, k);
    let (w, h) = refinement::refined_size(size, k).expect("a size");
    let point = |i: usize, j: usize| refinement::point_of(&refined, (w, h), (1024 * i, 1024 * j));
    let corners = [(0, 0), (w - 1, 0), (0, h - 1), (w - 1, h - 1)];
    let corners = corners.map(|(i, j)| point(i, j));
    let of_grid = outlines::all((w, h)).map(|t| t.corners());
    let of_grid = of_grid.map(|all| all.map(|(i, j)| point(i as usize, j as usize)));
    let triangles: Vec<[Space; 3]> = of_grid.collect();
    let (vertices, _) = net.as_chunks::<9>();
    let control = |vertex: &[i32; 9]| [0, 3, 6].map(|n| [0, 1, 2].map(|c| vertex[n + c]));
    let control_triangles: Vec<[Space; 3]> = vertices.iter().map(control).collect();
    let shown = candidates(corners, &facets)
        .into_iter()
        .any(|map| map.matches(&triangles, &facets) && map.matches(&control_triangles, &controls));
    assert!(shown, "{size:?} after {k} steps: no map of the surface");
}

#[test]
fn the_facets_are_those_of_the_surface() {
    let folder = Folder::new("projection");
    let mut random = Random::new(461);
    for (size, k) in [((3, 3), 0), ((4, 3), 1), ((3, 5), 2), ((2, 2), 3)] {
        check(&folder, &plate(&mut random, size), size, k);
    }
}
