//! The drawing of a seam: the differences along the line, with the allowance above and below.

use crate::lines::lines;
use crate::running::{plate, Folder, Size, CORNER};
use crate::svg::{elements, of_class, seen, view, Element, Point};
use ups_tests::nets::{self, Numbers};
use ups_tests::random::Random;
use ups_tests::refinement;
use ups_tests::seam;

/// Differences of a coordinate along a line, after L steps minus after K.
#[derive(Clone, Copy)]
struct Range {
    least: i32,
    greatest: i32,
    /// The one that is the first of the greatest size, and at which part of the line it is.
    widest: i32,
    part: f64,
}

/// Those of the left side.
fn ranges(net: &[i32], size: Size, depths: [usize; 2]) -> [Range; 3] {
    let nets = depths.map(|k| refinement::refined(net, size, k));
    let left = &lines(size)[2];
    let places: Vec<Size> = left.places(size, depths[0].min(depths[1]), 1).collect();
    let mut ranges: [Option<Range>; 3] = [None; 3];
    for (n, &place) in places.iter().enumerate() {
        let sides = seam::one_place(depths, place);
        let [one, two] = [0, 1].map(|n| sides[n].point_of(&nets[n], size));
        let part = n as f64 / (places.len() - 1) as f64;
        for (range, (x, x2)) in ranges.iter_mut().zip(one.into_iter().zip(two)) {
            let apart = x2 - x;
            let range = range.get_or_insert(Range {
                least: apart,
                greatest: apart,
                widest: apart,
                part,
            });
            range.least = range.least.min(apart);
            range.greatest = range.greatest.max(apart);
            if apart.abs() > range.widest.abs() {
                (range.widest, range.part) = (apart, part);
            }
        }
    }
    ranges.map(|range| range.expect("a place"))
}

/// The lines of the allowance of one coordinate: where they start and end, the height of no
/// difference and that of a unit.
struct Scale {
    from: f64,
    to: f64,
    zero: f64,
    unit: f64,
}

impl Scale {
    fn of(lines: [&Element; 2], allowance: f64) -> Scale {
        let ends = |name| lines.map(|line| line.number(name));
        let [[from, from2], [to, to2]] = ["x1", "x2"].map(ends);
        let [[one, two], other] = ["y1", "y2"].map(ends);
        assert_eq!((from, to, [one, two]), (from2, to2, other), "not level");
        // y counts downwards.
        let (above, below) = (one.min(two), one.max(two));
        Scale {
            from,
            to,
            zero: (above + below) / 2.0,
            unit: (below - above) / 2.0 / allowance,
        }
    }

    /// The difference that a point shows.
    fn shown(&self, [_, y]: Point) -> f64 {
        (self.zero - y) / self.unit
    }

    /// Whether a point shows this part of the line.
    fn at(&self, [x, _]: Point, part: f64) -> bool {
        let due = self.from + part * (self.to - self.from);
        (x - due).abs() < 2.0
    }
}

fn check_path(points: &[Point], scale: &Scale, range: Range) {
    assert!(scale.unit > 3.0, "a unit cannot be seen");
    let near = |shown: f64, due: i32| (shown - f64::from(due)).abs() < 0.1;
    let shown = points.iter().map(|&point| scale.shown(point));
    let least = shown.clone().fold(f64::MAX, f64::min);
    assert!(near(least, range.least), "{least}, not {}", range.least);
    let greatest = shown.fold(f64::MIN, f64::max);
    assert!(
        near(greatest, range.greatest),
        "{greatest}, not {}",
        range.greatest
    );
    let mut there = points.iter().filter(|&&point| scale.at(point, range.part));
    assert!(there.any(|&point| near(scale.shown(point), range.widest)));
    for part in [0.0, 1.0] {
        assert!(points.iter().any(|&point| scale.at(point, part)), "an end");
    }
}

/// Checks the drawing of the left side of a net, of which the allowance is above 0. Answers how
/// many coordinates have other differences above 0 than below.
fn check(folder: &Folder, net: &[i32], size: Size, [k, l]: [usize; 2]) -> usize {
    folder.put_net("net", net, size);
    let line = format!("seam net -k {k} -l {l} --along left -o -");
    let all = elements(&folder.bytes(&line));
    let (paths, allowances) = (of_class(&all, "d"), of_class(&all, "a"));
    assert_eq!((paths.len(), allowances.len()), (3, 6), "{line}");
    let ranges = ranges(net, size, [k, l]);
    for (n, range) in ranges.into_iter().enumerate() {
        let lines = [allowances[2 * n], allowances[2 * n + 1]];
        let scale = Scale::of(lines, f64::from((k + l + 2) as u32 / 2));
        let points = paths[n].points();
        assert!(points.iter().all(|&at| seen(view(&all), at)), "{line}");
        check_path(&points, &scale, range);
    }
    let uneven = |range: &&Range| range.least != -range.greatest;
    ranges.iter().filter(uneven).count()
}

#[test]
fn the_door_corner() {
    let folder = Folder::new("drawing-corner");
    let net = nets::door_corner(120);
    let mut uneven = 0;
    for depths in [[0, 2], [2, 0], [0, 1], [1, 3]] {
        uneven += check(&folder, &net, CORNER, depths);
    }
    assert!(uneven > 0, "the directions are not told apart");
}

#[test]
fn random_nets() {
    let folder = Folder::new("drawing-random");
    let mut random = Random::new(451);
    let mut uneven = 0;
    for depths in [[0, 1], [3, 0], [1, 4], [2, 1]] {
        let net = nets::random_net(&mut random, (2, 4), Numbers::Large);
        uneven += check(&folder, &net, (2, 4), depths);
        let net = plate(&mut random, (3, 2));
        uneven += check(&folder, &net, (3, 2), depths);
    }
    assert!(uneven > 0, "the directions are not told apart");
}

/// With a file the figures are printed as without one; on standard output the drawing stands alone.
#[test]
fn the_figures_and_the_drawing() {
    let folder = Folder::new("drawing-figures");
    folder.put_corner("net");
    let line = "seam net -k 0 -l 2 --along row 1";
    let figures = folder.printed(line);
    assert!(figures.starts_with("places "));
    assert_eq!(folder.printed(&format!("{line} -o out")), figures);
    assert_eq!(folder.bytes(&format!("{line} -o -")), folder.get("out"));
    // Where both depths are one, the allowance is 0.
    let all = elements(&folder.bytes("seam net -k 1 -l 1 --along top -o -"));
    assert_eq!(of_class(&all, "d").len(), 3);
    assert_eq!(of_class(&all, "a").len(), 6);
}

/// The places off the door are not drawn, also where they lie between others.
#[test]
fn doors() {
    let folder = Folder::new("drawing-doors");
    let mut random = Random::new(452);
    let size = (3, 4);
    folder.put_net("net", &plate(&mut random, size), size);
    let left = lines(size).swap_remove(2);
    assert_eq!(left.name, "left");
    // The cell in the middle of the left side is missing, and the door goes around it.
    let outline = ups_tests::shapes::of(size, |t| (t.i, t.j) != (0, 1));
    folder.put("outline", outline);
    let line = "seam net -k 0 -l 1 --along left --outline outline -o -";
    let all = elements(&folder.bytes(line));
    for path in of_class(&all, "d") {
        let starts = path.get("d").expect("a path").matches('M').count();
        assert_eq!(starts, 2, "two parts of a line");
    }
}
