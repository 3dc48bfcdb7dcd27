//! A strict reader of the part of XML that a drawing needs: tags closed in order, quoted
//! attributes, four entities, one root. What is not well-formed ends the test.

pub type Point = [f64; 2];

/// An element with its attributes and the text right inside it.
#[derive(Debug)]
pub struct Element {
    pub name: String,
    pub attributes: Vec<(String, String)>,
    pub text: String,
    /// Where the element's own (0, 0) is, by the elements around it.
    origin: Point,
}

impl Element {
    pub fn get(&self, attribute: &str) -> Option<&str> {
        let found = self.attributes.iter().find(|(name, _)| name == attribute);
        found.map(|(_, value)| value.as_str())
    }

    pub fn has_class(&self, class: &str) -> bool {
        self.get("class") == Some(class)
    }

    /// A number of an attribute that has one.
    pub fn number(&self, attribute: &str) -> f64 {
        let value = self.get(attribute);
        let value = value.unwrap_or_else(|| panic!("{attribute} of {self:?}"));
        finite(value)
    }

    /// The points of a polygon's `points` or of a path's `d`, as they are seen.
    pub fn points(&self) -> Vec<Point> {
        let own = match (self.get("points"), self.get("d")) {
            (Some(points), _) => pairs(&numbers(points)),
            (None, Some(d)) => path(d),
            (None, None) => panic!("no points: {self:?}"),
        };
        let [x, y] = self.origin;
        own.iter().map(|[p, q]| [p + x, q + y]).collect()
    }

    /// How far an element and those inside it are moved.
    fn moved(&self) -> Point {
        let Some(transform) = self.get("transform") else {
            return [0.0; 2];
        };
        let list = transform.strip_prefix("translate(");
        let list = list.and_then(|list| list.strip_suffix(')'));
        match (list, self.name.as_str()) {
            (Some(list), _) => numbers(list).try_into().expect("two numbers"),
            // The name of an axis may be turned.
            (None, "text") => [0.0; 2],
            (None, _) => panic!("{self:?}"),
        }
    }
}

fn pairs(numbers: &[f64]) -> Vec<Point> {
    let (points, rest) = numbers.as_chunks::<2>();
    assert!(rest.is_empty(), "{numbers:?}");
    points.to_vec()
}

/// The points of a path with the commands M, L, H, V and Z, which begins with M.
fn path(d: &str) -> Vec<Point> {
    let mut points: Vec<Point> = Vec::new();
    let starts = d.match_indices(|sign: char| sign.is_ascii_alphabetic() && sign != 'e');
    let starts: Vec<usize> = starts.map(|(at, _)| at).collect();
    assert!(d.starts_with('M'), "{d:?}");
    for (n, &at) in starts.iter().enumerate() {
        let end = starts.get(n + 1).copied().unwrap_or(d.len());
        let numbers = numbers(&d[at + 1..end]);
        let last = points.last().copied();
        let along = |point: fn(f64, Point) -> Point| {
            let from = last.expect("a point before it");
            numbers.iter().map(move |&x| point(x, from)).collect()
        };
        let more: Vec<Point> = match &d[at..=at] {
            "M" | "L" => pairs(&numbers),
            "H" => along(|x, [_, y]| [x, y]),
            "V" => along(|y, [x, _]| [x, y]),
            "Z" => Vec::new(),
            command => panic!("the command {command}"),
        };
        assert_eq!(more.is_empty(), &d[at..=at] == "Z", "{d:?}");
        points.extend(more);
    }
    points
}

/// A decimal number; words such as NaN and inf are none.
fn finite(text: &str) -> f64 {
    let plain = |byte: u8| byte.is_ascii_digit() || b"+-.eE".contains(&byte);
    assert!(!text.is_empty() && text.bytes().all(plain), "{text:?}");
    let number: f64 = text.parse().unwrap_or_else(|_| panic!("{text:?}"));
    assert!(number.is_finite(), "{text}");
    number
}

/// The numbers of a list, between blanks and commas.
pub fn numbers(list: &str) -> Vec<f64> {
    let words = list.split([' ', ',', '\n']);
    words.filter(|word| !word.is_empty()).map(finite).collect()
}

/// Attributes that are one number, and those that are a list of numbers.
const SINGLE: [&str; 15] = [
    "x",
    "y",
    "x1",
    "y1",
    "x2",
    "y2",
    "dx",
    "dy",
    "cx",
    "cy",
    "r",
    "rx",
    "width",
    "height",
    "font-size",
];
const LISTS: [&str; 2] = ["points", "viewBox"];

/// The text with its entities put in; another entity or a bare sign ends the test.
fn decoded(text: &str) -> String {
    assert!(!text.contains(['<', '>']), "{text:?}");
    let mut decoded = String::new();
    let mut left = text;
    while let Some((before, after)) = left.split_once('&') {
        let (entity, after) = after.split_once(';').expect("the end of an entity");
        let sign = match entity {
            "amp" => '&',
            "lt" => '<',
            "gt" => '>',
            "quot" => '"',
            _ => panic!("the entity {entity}"),
        };
        decoded = decoded + before + &sign.to_string();
        left = after;
    }
    decoded + left
}

fn is_name(name: &str) -> bool {
    let letters = |byte: u8| byte.is_ascii_alphanumeric() || b"-_:".contains(&byte);
    name.starts_with(|first: char| first.is_ascii_alphabetic()) && name.bytes().all(letters)
}

/// The attributes of a tag, each with a blank before it and a name of its own.
fn attributes(mut left: &str) -> Vec<(String, String)> {
    let mut found: Vec<(String, String)> = Vec::new();
    while !left.trim_start().is_empty() {
        assert!(left.starts_with([' ', '\n']), "{left:?}");
        let (name, after) = left.trim_start().split_once('=').expect("a value");
        assert!(is_name(name), "{name:?}");
        assert!(
            !found.iter().any(|(other, _)| other == name),
            "{name} twice"
        );
        let after = after.strip_prefix('"').expect("a quote");
        let (value, after) = after.split_once('"').expect("a quote");
        found.push((name.to_owned(), decoded(value)));
        left = after;
    }
    found
}

/// The numbers of an element are numbers, and no word of its attributes stands for none.
fn check_numbers(element: &Element) {
    for (name, value) in &element.attributes {
        let lower = value.to_lowercase();
        assert!(!lower.contains("nan") && !lower.contains("inf"), "{value}");
        if SINGLE.contains(&name.as_str()) {
            finite(value.trim_end_matches("px"));
        } else if LISTS.contains(&name.as_str()) {
            assert!(!numbers(value).is_empty(), "{name} of {element:?}");
        } else if name == "d" {
            assert!(!element.points().is_empty());
        }
    }
}

fn add([x, y]: Point, [p, q]: Point) -> Point {
    [x + p, y + q]
}

/// A start tag's element inside one with this origin, and whether it is closed in itself.
fn start(tag: &str, origin: Point) -> (Element, bool) {
    let (tag, closed) = match tag.strip_suffix('/') {
        Some(tag) => (tag, true),
        None => (tag, false),
    };
    let end = tag.find([' ', '\n']).unwrap_or(tag.len());
    let (name, rest) = tag.split_at(end);
    assert!(is_name(name), "{tag:?}");
    let mut element = Element {
        name: name.to_owned(),
        attributes: attributes(rest),
        text: String::new(),
        origin,
    };
    element.origin = add(origin, element.moved());
    check_numbers(&element);
    (element, closed)
}

/// The end of a tag: a `>` outside the quotes.
fn tag_end(text: &str) -> usize {
    let mut quoted = false;
    let end = text.find(|sign| {
        quoted ^= sign == '"';
        sign == '>' && !quoted
    });
    end.expect("the end of a tag")
}

/// All elements of a drawing, in the order of their start tags; the first is the root, `svg`.
pub fn elements(file: &[u8]) -> Vec<Element> {
    let text = std::str::from_utf8(file).expect("text");
    let mut left = text;
    if let Some(after) = left.strip_prefix("<?xml ") {
        left = after.split_once("?>").expect("the end").1;
    }
    let (mut found, mut open): (Vec<Element>, Vec<usize>) = (Vec::new(), Vec::new());
    while let Some((before, after)) = left.split_once('<') {
        match open.last() {
            Some(&inside) => found[inside].text += &decoded(before),
            None => assert!(before.trim().is_empty(), "text outside: {before:?}"),
        }
        let (tag, rest) = after.split_at(tag_end(after));
        left = &rest[1..];
        if let Some(name) = tag.strip_prefix('/') {
            let closed = open.pop().expect("an open element");
            assert_eq!(found[closed].name, name, "closed in another order");
            continue;
        }
        assert!(!open.is_empty() || found.is_empty(), "a second root");
        let origin = open.last().map_or([0.0; 2], |&inside| found[inside].origin);
        let (element, closed) = start(tag, origin);
        if !closed {
            open.push(found.len());
        }
        found.push(element);
    }
    assert!(open.is_empty() && left.trim().is_empty(), "not closed");
    let root = found.first().expect("a root");
    assert_eq!(root.name, "svg");
    assert_eq!(root.get("xmlns"), Some("http://www.w3.org/2000/svg"));
    found
}

/// The elements of a class.
pub fn of_class<'a>(elements: &'a [Element], class: &str) -> Vec<&'a Element> {
    let of_class = |element: &&Element| element.has_class(class);
    elements.iter().filter(of_class).collect()
}

/// x, y, width and height of what is seen.
pub fn view(elements: &[Element]) -> [f64; 4] {
    let view = elements[0].get("viewBox").expect("a view box");
    numbers(view).try_into().expect("four numbers")
}

/// Whether a point is seen.
pub fn seen([x, y, width, height]: [f64; 4], [p, q]: Point) -> bool {
    (x..=x + width).contains(&p) && (y..=y + height).contains(&q)
}
