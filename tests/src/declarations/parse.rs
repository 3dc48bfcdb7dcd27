//! Reads functions and constants out of texts in Rattle, C and Rust. What looks like a function and
//! cannot be read is handed back as text, so that nothing is passed over.

/// A function as it is called, in Rust's words: a parameter is `name: type`.
pub struct Function {
    pub name: String,
    pub parameters: Vec<String>,
    pub result: String,
}

/// A function, or the beginning of what cannot be read as one.
pub type Read = Result<Function, String>;

/// Reads one parameter of a list; a slice is two of them, as it is passed.
type OneParameter = fn(&str) -> Option<Vec<String>>;

/// The types that are passed, in C and in Rust.
const TYPES: [(&str, &str); 6] = [
    ("size_t", "usize"),
    ("uint8_t", "u8"),
    ("int32_t", "i32"),
    ("uint32_t", "u32"),
    ("uint64_t", "u64"),
    ("double", "f64"),
];

/// The functions that Rattle exports: `extern "C" fn name(parameters) -> result`.
pub fn rattle_functions(text: &str) -> Vec<Read> {
    let code = code(text);
    let exports = code.split("extern \"C\" fn ").skip(1);
    exports
        .map(|export| rust_function(export, rattle_parameter))
        .collect()
}

/// The functions of the `extern "C"` blocks of a text in Rust.
pub fn rust_functions(text: &str) -> Vec<Read> {
    let code = code(text);
    let blocks = code.split("extern \"C\" {").skip(1);
    let items = blocks.flat_map(|block| block.split('}').next().unwrap_or_default().split(';'));
    let items = items.map(str::trim).filter(|item| !item.is_empty());
    items
        .map(|item| rust_function(item.trim_start_matches("pub fn "), rust_parameter))
        .collect()
}

/// The functions that a header in C declares. Bodies are passed over, and what is `static`.
pub fn c_functions(text: &str) -> Vec<Read> {
    let code = without_directives(&code(text));
    let mut found = Vec::new();
    let mut rest = code.as_str();
    while let Some(at) = rest.find([';', '{', '}']) {
        let (item, mark) = (rest[..at].trim(), &rest[at..=at]);
        let linkage = item == "extern \"C\"";
        rest = &rest[at + 1..];
        if mark == "{" && !linkage {
            rest = after_body(rest);
        }
        let passed = item.is_empty() || item.starts_with("static ") || item.starts_with("enum ");
        if !linkage && !passed {
            found.push(c_function(item).ok_or_else(|| beginning(item)));
        }
    }
    found
}

/// The text without comments, from `//` to the end of the line and from `/*` to `*/`.
pub fn code(text: &str) -> String {
    let mut code = String::new();
    let mut rest = text;
    while let Some(at) = rest.find('/') {
        let (before, comment) = rest.split_at(at);
        code.push_str(before);
        rest = match comment.get(..2) {
            Some("//") => &comment[comment.find('\n').unwrap_or(comment.len())..],
            Some("/*") => comment[2..].split_once("*/").map_or("", |(_, rest)| rest),
            _ => {
                code.push('/');
                &comment[1..]
            }
        };
    }
    code + rest
}

/// The code of a header without the lines of the preprocessor.
fn without_directives(code: &str) -> String {
    let code = code.replace("\\\n", " ");
    let lines = code.lines().filter(|line| !line.starts_with('#'));
    lines.collect::<Vec<_>>().join("\n")
}

/// What follows the brace that closes a body.
fn after_body(text: &str) -> &str {
    let mut depth = 1;
    for (at, c) in text.char_indices() {
        match c {
            '{' => depth += 1,
            '}' => depth -= 1,
            _ => {}
        }
        if depth == 0 {
            return &text[at + 1..];
        }
    }
    ""
}

/// `name(parameters) -> result`, whatever follows.
fn rust_function(text: &str, one: OneParameter) -> Read {
    let read = || {
        let (name, rest) = text.split_once('(')?;
        let (list, rest) = rest.split_once(')')?;
        let result = rest.trim_start().strip_prefix("->")?;
        Some(Function {
            name: name.to_owned(),
            parameters: parameters(list, one)?,
            result: result.split_whitespace().next()?.to_owned(),
        })
    };
    read().ok_or_else(|| beginning(text))
}

/// `result name(parameters)`.
fn c_function(item: &str) -> Option<Function> {
    let (head, list) = item.strip_suffix(')')?.split_once('(')?;
    let (result, name) = head.split_once(' ')?;
    Some(Function {
        name: name.to_owned(),
        parameters: parameters(list, c_parameter)?,
        result: c_type(result)?.to_owned(),
    })
}

fn parameters(list: &str, one: OneParameter) -> Option<Vec<String>> {
    // Rattle and Rust allow a comma after the last.
    let texts = list
        .split(',')
        .map(str::trim)
        .filter(|text| !text.is_empty());
    let read: Option<Vec<_>> = texts.map(one).collect();
    Some(read?.concat())
}

/// A slice, `net: &[i32]`, is passed as `net` and `net_len`.
fn rattle_parameter(text: &str) -> Option<Vec<String>> {
    let (name, kind) = text.split_once(": ")?;
    let Some(slice) = kind.strip_prefix('&') else {
        return Some(vec![text.to_owned()]);
    };
    let (pointer, slice) = match slice.strip_prefix("mut ") {
        Some(slice) => ("*mut", slice),
        None => ("*const", slice),
    };
    let element = slice.strip_prefix('[')?.strip_suffix(']')?;
    Some(vec![
        format!("{name}: {pointer} {element}"),
        format!("{name}_len: usize"),
    ])
}

fn rust_parameter(text: &str) -> Option<Vec<String>> {
    text.contains(": ").then(|| vec![text.to_owned()])
}

fn c_parameter(text: &str) -> Option<Vec<String>> {
    let text = text.replace('*', " * ");
    let words: Vec<&str> = text.split_whitespace().collect();
    let (pointer, kind, name) = match words[..] {
        [kind, name] => ("", kind, name),
        [kind, "*", name] => ("*mut ", kind, name),
        ["const", kind, "*", name] => ("*const ", kind, name),
        _ => return None,
    };
    Some(vec![format!("{name}: {pointer}{}", c_type(kind)?)])
}

/// The same type in Rust's words.
fn c_type(word: &str) -> Option<&'static str> {
    let found = TYPES.iter().find(|(in_c, _)| *in_c == word);
    found.map(|(_, in_rust)| *in_rust)
}

/// The first words of a text, enough to find it by.
fn beginning(text: &str) -> String {
    text.split_whitespace()
        .take(8)
        .collect::<Vec<_>>()
        .join(" ")
}

/// The value of `const name: type = value;` in Rattle and Rust.
pub fn constant(text: &str, name: &str) -> Option<usize> {
    let code = code(text);
    let (before, rest) = code.split_once(&format!("const {name}: "))?;
    let (_, value) = rest.split(';').next()?.split_once('=')?;
    product(value, |other| constant(before, other))
}

/// The value of `#define name value` in C.
pub fn defined(text: &str, name: &str) -> Option<usize> {
    let code = code(text);
    let (before, rest) = code.split_once(&format!("#define {name} "))?;
    product(rest.lines().next()?, |other| defined(before, other))
}

/// A product of numbers and of constants that stand before it.
fn product(value: &str, earlier: impl Fn(&str) -> Option<usize>) -> Option<usize> {
    let factors = value.split('*').map(str::trim);
    factors
        .map(|factor| factor.parse().ok().or_else(|| earlier(factor)))
        .product()
}

/// What follows `key` on the line that begins with it, without quotes.
pub fn field<'a>(text: &'a str, key: &str) -> Option<&'a str> {
    let value = text.lines().find_map(|line| line.strip_prefix(key))?;
    Some(value.trim().trim_matches('"'))
}
