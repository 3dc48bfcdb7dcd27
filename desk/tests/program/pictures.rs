//! `picture`: well-formed, the right count of shapes, and no number that is none.

use crate::running::{plate, small_net, Folder, Size, CORNER};
use crate::svg::{elements, of_class, seen, view, Element, Point};
use std::collections::{HashMap, HashSet};
use ups_tests::nets::{self, NUMBERS};
use ups_tests::oracle::{Kind, Triangle, LIMIT};
use ups_tests::outlines::{self, Door};
use ups_tests::random::Random;
use ups_tests::record;
use ups_tests::refinement;
use ups_tests::shapes;

/// The shapes of a picture, all of whose points are seen.
struct Picture {
    facets: Vec<Vec<Point>>,
    controls: usize,
    all: Vec<Element>,
}

fn draw(folder: &Folder, options: &str) -> Picture {
    folder.silent(&format!("picture net -o out {options}"));
    let all = elements(&folder.get("out"));
    let view = view(&all);
    let shapes = |class| {
        let shapes = of_class(&all, class);
        let points = shapes.iter().map(|shape| shape.points());
        points.collect::<Vec<_>>()
    };
    let (facets, controls) = (shapes("f"), shapes("c"));
    for points in facets.iter().chain(&controls) {
        assert!((3..=4).contains(&points.len()), "{points:?}");
        // A triangle may be closed by its first point.
        assert!(points.len() == 3 || points[0] == points[3]);
        assert!(points.iter().all(|&point| seen(view, point)), "{points:?}");
    }
    let controls = controls.len();
    Picture {
        facets,
        controls,
        all,
    }
}

/// The counts of facets and of control triangles.
fn counts(folder: &Folder, options: &str) -> (usize, usize) {
    let picture = draw(folder, options);
    (picture.facets.len(), picture.controls)
}

#[test]
fn the_door_corner() {
    let folder = Folder::new("picture-corner");
    folder.put_corner("net");
    for k in 0..7 {
        let count = 2 << (2 * k);
        assert_eq!(counts(&folder, &format!("-k {k}")), (count, 0));
        assert_eq!(counts(&folder, &format!("--net -k {k}")), (count, 4));
    }
    assert_eq!(counts(&folder, ""), (8192, 0));
    let printed = folder.bytes("picture net -o -");
    folder.silent("picture net -o out");
    assert!(printed == folder.get("out"));
}

/// The greatest K with at most 8,192 triangles, or 0.
#[test]
fn the_depth_that_is_not_given() {
    let folder = Folder::new("picture-depths");
    for (size, count) in [
        ((2, 2), 8192),
        ((3, 2), 4096),
        ((4, 2), 6144),
        ((3, 3), 8192),
        ((6, 5), 2560),
        ((33, 33), 8192),
        ((34, 33), 2112),
        ((65, 65), 8192),
        ((66, 65), 8320),
        ((70, 70), 9522),
        ((513, 2), 4096),
        ((514, 2), 1026),
        ((1025, 2), 2048),
        ((129, 129), 32_768),
    ] {
        folder.put_net("net", &vec![0; record::numbers(size)], size);
        assert_eq!(counts(&folder, ""), (count, 0), "{size:?}");
    }
}

/// Above 32,768 triangles, and of control triangles above 4,096, every second, fourth, .. column
/// and row, with the last.
#[test]
fn thinned_nets() {
    let folder = Folder::new("picture-thinned");
    for (size, k, facets, controls) in [
        ((129, 129), 0, 32_768, 33 * 33),
        ((130, 129), 0, 2 * 65 * 64, 34 * 33),
        ((131, 131), 0, 2 * 65 * 65, 34 * 34),
        ((17, 17), 3, 32_768, 289),
        ((17, 17), 4, 32_768, 289),
        ((18, 17), 4, 2 * 68 * 64, 306),
        ((17, 17), 5, 32_768, 289),
        ((1025, 17), 0, 32_768, 257 * 5),
        ((1025, 18), 0, 2 * 512 * 9, 257 * 6),
        ((64, 64), 0, 2 * 63 * 63, 4096),
        ((65, 64), 0, 2 * 64 * 63, 33 * 33),
        ((258, 258), 0, 2 * 65 * 65, 34 * 34),
    ] {
        folder.put_net("net", &vec![0; record::numbers(size)], size);
        let found = counts(&folder, &format!("-k {k} --net"));
        assert_eq!(found, (facets, controls), "{size:?} {k}");
    }
}

/// The facets of an outlined door: as many as there are present triangles.
#[test]
fn doors() {
    let folder = Folder::new("picture-doors");
    let mut random = Random::new(441);
    for round in 0..12 {
        let (net, size) = small_net(&mut random, NUMBERS[round % 4]);
        let most = 1 + random.below(12);
        let outline = shapes::grown(&mut random, size, most);
        folder.put_net("net", &net, size);
        folder.put("outline", &outline);
        let present = outline.iter().filter(|&&byte| byte == 1).count();
        for k in 0..3 {
            let options = format!("-k {k} --outline outline");
            let (count, _) = counts(&folder, &options);
            assert_eq!(count, present << (2 * k), "{size:?} {k}");
        }
        // Of the vertices those that a present triangle has.
        let door = Door::new(&outline, size);
        let vertices = (0..size.0 * size.1).map(|n| (n % size.0, n / size.0));
        let on_door = vertices.filter(|&at| door.holds(at, 1)).count();
        let (_, controls) = counts(&folder, "-k 0 --net --outline outline");
        assert_eq!(controls, on_door, "{size:?}");
    }
}

/// A net's triangles but some at random, without those that have lost all of their neighbours.
fn with_holes(random: &mut Random, size: Size, holes: usize) -> Vec<u8> {
    let mut outline = shapes::full(size);
    for _ in 0..holes {
        let at = random.below(outline.len());
        outline[at] = 0;
    }
    let door = Door::new(&outline, size);
    let joined = shapes::of(size, |t| {
        door.has(t) && outlines::neighbours(t).iter().any(|near| door.has(near))
    });
    assert!(Door::new(&joined, size).connected(), "take another seed");
    joined
}

/// Whether the four triangles of a facet of every second column and row are present.
fn spans_present(door: &Door, facet: &Triangle) -> bool {
    let cells = [(0, 0), (1, 0), (0, 1), (1, 1)];
    let fine = cells.iter().flat_map(|(a, b)| {
        let (i, j) = (2 * facet.i + a, 2 * facet.j + b);
        [Kind::Up, Kind::Down].map(|kind| Triangle { kind, i, j })
    });
    let inside = |t: &Triangle| t.corners().iter().all(|&(p, q)| facet.holds(p, q, 2));
    let inside: Vec<Triangle> = fine.filter(inside).collect();
    assert_eq!(inside.len(), 4);
    inside.iter().all(|t| door.has(t))
}

/// A thinned door has the facets of which all triangles are present.
#[test]
fn thinned_doors() {
    let folder = Folder::new("picture-thinned-doors");
    let size = (257, 257);
    let mut random = Random::new(442);
    let outline = with_holes(&mut random, size, 3000);
    folder.put_net("net", &vec![0; record::numbers(size)], size);
    folder.put("outline", &outline);
    let door = Door::new(&outline, size);
    let facets = outlines::all((129, 129));
    let due = facets.filter(|facet| spans_present(&door, facet)).count();
    let (count, _) = counts(&folder, "-k 0 --outline outline");
    assert_eq!(count, due);
    assert!((20_000..31_000).contains(&due), "{due}");
    // One row of cells, of which no facet has all triangles.
    folder.put("outline", shapes::of(size, |t| t.j == 1));
    assert_eq!(counts(&folder, "-k 0 --outline outline"), (0, 0));
}

/// At the end of a row or column, where a cell of facets is not square, both of its facets are
/// missing with any triangle of the cell; elsewhere one.
#[test]
fn cells_that_are_not_square() {
    let folder = Folder::new("picture-cells");
    let size = (130, 130);
    folder.put_net("net", &vec![0; record::numbers(size)], size);
    let all = 2 * 65 * 65;
    for (kind, i, j, missing) in [
        (Kind::Up, 10, 10, 1),
        (Kind::Down, 11, 10, 1),
        (Kind::Up, 128, 10, 2),
        (Kind::Down, 128, 11, 2),
        (Kind::Up, 10, 128, 2),
        (Kind::Down, 11, 128, 2),
        // The last cell is square: one triangle wide and high.
        (Kind::Down, 128, 128, 1),
    ] {
        let hole = Triangle::new(kind, i, j);
        folder.put("outline", shapes::of(size, |t| *t != hole));
        let (count, _) = counts(&folder, "-k 0 --outline outline");
        assert_eq!(count, all - missing, "{hole:?}");
    }
}

/// A picture with columns and rows left out says so.
#[test]
fn what_is_left_out_is_told() {
    let folder = Folder::new("picture-told");
    let told = |options: &str| {
        let picture = draw(&folder, options);
        let mut texts = picture.all.iter().map(|element| &element.text);
        texts.any(|text| text.contains("column"))
    };
    for (size, options, thinned) in [
        ((17, 17), "-k 3 --net", false),
        ((17, 17), "-k 4", true),
        ((65, 64), "-k 0", false),
        ((65, 64), "-k 0 --net", true),
    ] {
        folder.put_net("net", &vec![0; record::numbers(size)], size);
        assert_eq!(told(options), thinned, "{size:?} {options}");
    }
}

/// The drawn facets meet as the grid's triangles do: an inner edge is drawn twice.
#[test]
fn facets_meet() {
    let folder = Folder::new("picture-facets");
    let mut random = Random::new(443);
    for (size, k) in [((2, 2), 2), ((4, 3), 1), ((5, 6), 0)] {
        folder.put_net("net", &flat(size), size);
        let facets = draw(&folder, &format!("-k {k}")).facets;
        let (w, h) = refinement::refined_size(size, k).expect("a size");
        let name = |[x, y]: Point| (x.to_bits(), y.to_bits());
        let points: HashSet<_> = facets.iter().flatten().map(|&at| name(at)).collect();
        assert_eq!(points.len(), w * h);
        let mut edges = HashMap::new();
        for facet in &facets {
            for (a, b) in [(0, 1), (1, 2), (2, 0)] {
                let ends = [name(facet[a]), name(facet[b])];
                let edge = (ends[0].min(ends[1]), ends[0].max(ends[1]));
                *edges.entry(edge).or_insert(0) += 1;
            }
        }
        let border = edges.values().filter(|&&count| count == 1).count();
        assert_eq!(border, 2 * (w - 1) + 2 * (h - 1));
        assert!(edges.values().all(|&count| count <= 2));
        // A net that is not flat has facets of more than one shade.
        folder.put_net("net", &plate(&mut random, size), size);
        let curved = draw(&folder, &format!("-k {k}"));
        let shades = of_class(&curved.all, "f");
        let shades: HashSet<_> = shades.iter().map(|facet| facet.get("color")).collect();
        assert!(shades.len() > 1 && !shades.contains(&None), "{shades:?}");
    }
}

/// A flat regular net.
fn flat((w, h): Size) -> Vec<i32> {
    let mut net = Vec::new();
    for j in 0..h as i32 {
        for i in 0..w as i32 {
            let (x, y) = (6000 * i, 6000 * j);
            net.extend([x + 3000, y, 0, x - 3000, y + 3000, 0, x, y - 3000, 0]);
        }
    }
    net
}

/// Nets without extent, in one plane or line, and at the ends of the range.
#[test]
fn nets_without_extent() {
    let folder = Folder::new("picture-flat");
    let mut random = Random::new(444);
    let mut nets: Vec<Vec<i32>> = [0, 7, -LIMIT, LIMIT].map(|x| vec![x; 81]).to_vec();
    for zeros in 0..8 {
        let net = nets::random_net(&mut random, (3, 3), NUMBERS[zeros % 4]);
        let kept = |(n, x): (usize, &i32)| if zeros >> (n % 3) & 1 == 1 { 0 } else { *x };
        nets.push(net.iter().enumerate().map(kept).collect());
    }
    let mut one = vec![0; 81];
    one[80] = 1;
    nets.push(one);
    for net in nets {
        folder.put_net("net", &net, (3, 3));
        assert_eq!(counts(&folder, "-k 2 --net"), (128, 9), "{net:?}");
        folder.printed("seam net -k 0 -l 1 --along top -o drawing");
        elements(&folder.get("drawing"));
    }
}

/// Axes with their unit.
#[test]
fn axes_in_millimetres() {
    let folder = Folder::new("picture-axes");
    folder.put_net("net", &flat(CORNER), CORNER);
    let picture = draw(&folder, "");
    let texts: Vec<&str> = picture
        .all
        .iter()
        .map(|element| element.text.trim())
        .collect();
    for axis in ["x", "y", "z"] {
        let named = |text: &&str| text.split([' ', ',']).any(|word| word == axis);
        assert!(texts.iter().any(named), "{axis}: {texts:?}");
    }
    assert!(texts.iter().any(|text| text.contains("mm")), "{texts:?}");
}
