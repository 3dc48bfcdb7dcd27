//! The picture of a surface: the door seen at an angle, shaded, with axes in millimetres.
//!
//! The door stands upright: x to the right, y up, z towards the viewer, who stands to the right of
//! it and above. The scale is the same in all directions.

use crate::axes::{text_width, Axes};
use crate::mesh::{lines, Mesh};
use crate::shading::{seen, Contrast};
use crate::surface::{millimetres, Surface};
use crate::svg::{self, Frame};
use crate::view::{minus, Box3, Triangle, Vector, View};
use ups::{refined_triangles, Refusal, EDGE, GREATEST_DEPTH, POINT, RECORD};

/// The greatest count of triangles of a picture whose depth is not given.
const MOST_BY_DEFAULT: usize = 8_192;
/// The greatest count of facets.
const MOST_FACETS: usize = 32_768;
/// The greatest count of control triangles.
const MOST_CONTROLS: usize = 4_096;

const STYLE: &str = "\
.f{fill:currentColor;stroke:currentColor;stroke-width:1.2;stroke-linejoin:round}
.c{fill:none;stroke:#c2410c;stroke-width:1.2;stroke-linejoin:round}
";
const DARK_STYLE: &str = ".c{stroke:#f4651a}\n";

/// The picture of the net `start`: the facets of `refined`, which is `start` after k steps, and the
/// control triangles where `net`.
///
/// # Errors
///
/// Those of the library where it gives the surface points.
pub fn draw(start: &Surface, refined: &Surface, k: usize, net: bool) -> Result<String, Refusal> {
    let thinning = Thinning::of(start, refined);
    let mesh = Mesh::of(refined, thinning.facets)?;
    let controls = match net {
        true => controls(start, thinning.controls),
        false => Vec::new(),
    };
    let points = mesh.points.iter().map(|point| point.map(millimetres));
    let surface = Box3::around(points.clone());
    let around = Box3::around(points.chain(controls.as_flattened().iter().copied()));
    let view = View::of(&around);
    let mut captions = vec![size_caption(&mesh, &surface)];
    captions.extend(thinning.caption(net));
    let heading = format!(
        "{} by {} vertices, {} of refining",
        start.w,
        start.h,
        svg::count(k, "step")
    );
    let axes = Axes::of(&around, &view);
    let door = door(&mesh, &controls, &view);
    Ok(page(&heading, &captions, &axes, &door))
}

/// The greatest count of steps that refining accepts with few enough triangles, else 0.
pub fn default_depth(w: usize, h: usize) -> usize {
    let few = |k: &usize| (1..=MOST_BY_DEFAULT).contains(&refined_triangles(w, h, *k));
    (0..=GREATEST_DEPTH).rev().find(few).unwrap_or(0)
}

/// Of how many columns and rows one is drawn, and the last.
struct Thinning {
    facets: usize,
    controls: usize,
}

impl Thinning {
    fn of(start: &Surface, refined: &Surface) -> Thinning {
        let facets = |s| 2 * (lines(refined.w, s).len() - 1) * (lines(refined.h, s).len() - 1);
        let controls = |s| lines(start.w, s).len() * lines(start.h, s).len();
        Thinning {
            facets: least_power(|s| facets(s) <= MOST_FACETS),
            controls: least_power(|s| controls(s) <= MOST_CONTROLS),
        }
    }

    /// What the picture says of it, where anything is left out.
    fn caption(&self, net: bool) -> Option<String> {
        let every = |s: usize| format!("every {} column and row", ordinal(s));
        let facets = (self.facets > 1).then(|| format!("drawn: {}", every(self.facets)));
        let controls = (net && self.controls > 1)
            .then(|| format!("control triangles: {}", every(self.controls)));
        match (facets, controls) {
            (Some(facets), Some(controls)) => Some(format!("{facets}; {controls}")),
            (facets, controls) => facets.or(controls),
        }
    }
}

/// The least power of two that is enough.
fn least_power(enough: impl Fn(usize) -> bool) -> usize {
    let powers = (0..usize::BITS).map(|n| 1 << n);
    powers.into_iter().find(|s| enough(*s)).unwrap_or(1)
}

fn ordinal(n: usize) -> String {
    let end = match (n % 100, n % 10) {
        (11..=13, _) => "th",
        (_, 1) => "st",
        (_, 2) => "nd",
        (_, 3) => "rd",
        _ => "th",
    };
    format!("{n}{end}")
}

/// The control triangles of vertices on the door, of every s-th column and row and the last.
fn controls(start: &Surface, s: usize) -> Vec<Triangle> {
    let columns = lines(start.w, s);
    let vertices = lines(start.h, s).into_iter();
    let vertices = vertices.flat_map(|j| columns.iter().map(move |i| (*i, j)));
    let on_door = vertices.filter(|(i, j)| start.holds(EDGE * i, EDGE * j));
    let numbers = |(i, j)| {
        let first = RECORD * (j * start.w + i);
        let control = |k| [0, 1, 2].map(|n| millimetres(start.numbers()[first + POINT * k + n]));
        [0, 1, 2].map(control)
    };
    on_door.map(numbers).collect()
}

/// The facets, the nearest last, and the control triangles over them.
fn door(mesh: &Mesh, controls: &[Triangle], view: &View) -> String {
    let facets = seen(mesh, view);
    let contrast = Contrast::of(&facets);
    let mut text = String::new();
    for facet in &facets {
        let colour = contrast.colour(facet);
        let points = points(&facet.corners, view);
        text.push_str(&format!(
            "<polygon class=\"f\" color=\"{colour}\" points=\"{points}\"/>\n"
        ));
    }
    for control in controls {
        let points = points(control, view);
        text.push_str(&format!("<polygon class=\"c\" points=\"{points}\"/>\n"));
    }
    text
}

fn points(triangle: &Triangle, view: &View) -> String {
    let point = |corner: &Vector| {
        let (x, y) = view.place(*corner);
        format!("{},{}", svg::number(x, 2), svg::number(y, 2))
    };
    triangle.each_ref().map(point).join(" ")
}

fn size_caption(mesh: &Mesh, surface: &Box3) -> String {
    if mesh.triangles.is_empty() {
        return "no facet has all of its triangles".to_owned();
    }
    let size = |x: f64| svg::label(x, svg::decimals(x / 500.0).min(4));
    let [x, y, z] = minus(surface.high, surface.low).map(size);
    format!("surface {x} by {y} by {z} mm")
}

/// The least width and height of what is below the captions.
const LEAST_WIDE: f64 = 320.0;
const LEAST_HIGH: f64 = 160.0;
/// From one caption to the next, and from the last to the door.
const CAPTION_HIGH: f64 = 21.0;
const CAPTION_GAP: f64 = 22.0;

/// The whole picture: as large as what it shows.
fn page(heading: &str, captions: &[String], axes: &Axes, door: &str) -> String {
    let mut shown = axes.seen;
    for rect in &axes.taken {
        shown.take_all(rect);
    }
    let mut y = svg::PADDING + svg::HEADING;
    let mut text = svg::text("heading", (svg::PADDING, y), heading);
    let mut wide = LEAST_WIDE.max(svg::width_of(heading, svg::HEADING));
    for caption in captions {
        y += CAPTION_HIGH;
        wide = wide.max(text_width(caption));
        text.push_str(&svg::text("note", (svg::PADDING, y), caption));
    }
    let (wide, high) = (wide.max(shown.width()), shown.height().max(LEAST_HIGH));
    let top = y + CAPTION_GAP + (high - shown.height()) / 2.0;
    let left = svg::PADDING + (wide - shown.width()) / 2.0;
    let [x, y2] = [left - shown.left, top - shown.top].map(|x| svg::number(x, 2));
    let (behind, front) = (&axes.behind, &axes.front);
    text.push_str(&format!(
        "<g transform=\"translate({x} {y2})\">\n{behind}{door}{front}</g>\n"
    ));
    let frame = Frame {
        title: heading,
        width: (wide + 2.0 * svg::PADDING).ceil(),
        height: (y + CAPTION_GAP + high + svg::PADDING).ceil(),
        light: STYLE,
        dark: DARK_STYLE,
    };
    frame.around(&text)
}
