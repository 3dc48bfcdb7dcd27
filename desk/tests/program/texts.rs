//! The texts of details and of given points: how they are read, and the lines that are not.

use crate::running::{failed, refused, Folder, Size};
use ups_tests::netfile;
use ups_tests::random::Random;
use ups_tests::record;

/// A text of these numbers, nine a line.
pub fn text(numbers: &[i32], (w, h): Size) -> String {
    let mut text = format!("{w} {h}\n");
    for vertex in numbers.chunks(9) {
        let words: Vec<String> = vertex.iter().map(i32::to_string).collect();
        text += &format!("{}\n", words.join(" "));
    }
    text
}

/// The size and the numbers of a text that the program wrote; it must have all of its lines and no
/// other.
pub fn numbers(text: &[u8]) -> (Size, Vec<i32>) {
    let text = std::str::from_utf8(text).expect("text");
    assert!(text.ends_with('\n'), "the end of a line");
    let words = |line: &str| -> Vec<i32> {
        let words = line.split_ascii_whitespace();
        words.map(|word| word.parse().expect("a number")).collect()
    };
    let mut lines = text.lines().map(words);
    let size = lines.next().expect("a size");
    let [w, h] = size[..] else {
        panic!("the size {size:?}");
    };
    let vertices: Vec<Vec<i32>> = lines.collect();
    assert_eq!(vertices.len() as i32, w * h, "lines");
    assert!(vertices.iter().all(|numbers| numbers.len() == 9));
    ((w as usize, h as usize), vertices.concat())
}

/// A zero details text of 3 by 3, of which one line, counted from 1, is another.
fn with_line(number: usize, line: &str) -> String {
    let zeros = text(&[0; record::details((3, 3))], (3, 3));
    let mut lines: Vec<&str> = zeros.lines().collect();
    lines[number - 1] = line;
    lines.join("\n") + "\n"
}

/// The commands that read a text, on the text in `text`.
const READERS: [&str; 3] = [
    "clean text -t 1 -o out",
    "through text -o out",
    "merge corner text -o out",
];

/// Each of them must end with status 2 and the number of the line.
fn fail_at(folder: &Folder, text: impl AsRef<[u8]>, number: usize) {
    folder.put("text", &text);
    let shown = String::from_utf8_lossy(text.as_ref()).into_owned();
    for line in READERS {
        let start = format!("text: line {number}: ");
        failed(&folder.ups(line), &start, &format!("{line} of {shown:?}"));
        assert!(!folder.has("out"), "{line}");
    }
}

#[test]
fn other_lines_are_told_by_their_number() {
    let folder = Folder::new("texts-lines");
    folder.put_corner("corner");
    for size in [
        "3", "3 3 3", "x 3", "3 -3", "3.0 3", "", " ", "3,3", "0x3 3",
    ] {
        fail_at(&folder, with_line(1, size), 1);
    }
    for number in [2, 5, 10] {
        for line in [
            "0 0 0 0 0 0 0 0",
            "0 0 0 0 0 0 0 0 0 0",
            "",
            "  ",
            "# 0 0 0 0 0 0 0 0 0",
            "0 0 0 0 x 0 0 0 0",
            "0 0 0 0 1.5 0 0 0 0",
            "0 0 0 0 1e3 0 0 0 0",
            "0 0 0 0 - 0 0 0 0",
            "0 0 0 0 --1 0 0 0 0",
            "0,0,0,0,0,0,0,0,0",
            "0 0 0 0 0 0 0 0 2147483648",
            "-2147483649 0 0 0 0 0 0 0 0",
            "0 0 0 0 99999999999999999999999999 0 0 0 0",
        ] {
            fail_at(&folder, with_line(number, line), number);
        }
    }
    // Of two other lines the first is told.
    let text = with_line(4, "four").replace("0 0 0 0 0 0 0 0 0\nfour", "three\nfour");
    fail_at(&folder, text, 3);
}

#[test]
fn lines_after_the_last_vertex() {
    let folder = Folder::new("texts-more");
    folder.put_corner("corner");
    let zeros = text(&[0; record::details((3, 3))], (3, 3));
    for more in ["0 0 0 0 0 0 0 0 0\n", "x", "3 3\n", "\n"] {
        fail_at(&folder, zeros.clone() + more, 11);
    }
}

/// Bytes that are no text.
#[test]
fn bytes_that_are_no_text() {
    let folder = Folder::new("texts-bytes");
    folder.put_corner("corner");
    fail_at(&folder, b"\xff\xfe3 3\n", 1);
    let mut bytes = with_line(6, "0 0 0 0 ? 0 0 0 0").into_bytes();
    let at = bytes.iter().position(|&byte| byte == b'?').expect("there");
    bytes[at] = 0xc3;
    fail_at(&folder, &bytes, 6);
    bytes[at] = 0;
    fail_at(&folder, &bytes, 6);
}

#[test]
fn missing_lines_are_refused_by_the_library() {
    let folder = Folder::new("texts-missing");
    folder.put_corner("corner");
    let zeros = text(&[0; record::details((3, 3))], (3, 3));
    for count in [1, 2, 9] {
        let lines: Vec<&str> = zeros.lines().take(count).collect();
        folder.put("text", lines.join("\n") + "\n");
        for line in READERS {
            refused(&folder.ups(line), 2, line);
        }
    }
    assert_eq!(folder.names(), ["corner", "text"]);
}

/// A size that no net has is refused by the library, whatever lines follow.
#[test]
fn sizes_that_no_net_has() {
    let folder = Folder::new("texts-sizes");
    for (size, number) in [("1 3", 1), ("3 0", 1), ("3 1027", 1), ("1026 3", 1)] {
        folder.put("text", format!("{size}\n0 0 0 0 0 0 0 0 0\n"));
        folder.refuses("clean text -t 1 -o out", number);
        folder.refuses("through text -o out", number);
    }
    folder.put("text", text(&[0; record::details((3, 4))], (3, 4)));
    folder.refuses("clean text -t 1 -o out", 10);
    folder.silent("through text -o out");
}

/// Blanks between the numbers, and a last line without its end.
#[test]
fn blanks() {
    let folder = Folder::new("texts-blanks");
    let mut random = Random::new(361);
    let given: Vec<i32> = (0..36).map(|_| random.between(-999, 999)).collect();
    let plain = text(&given, (2, 2));
    folder.put("text", &plain);
    folder.silent("through text -o net");
    for other in [
        plain.replace(' ', "   "),
        plain.replace(' ', "\t"),
        plain.trim_end().to_owned(),
    ] {
        folder.put("text", &other);
        folder.silent("through text -o other");
        assert_eq!(folder.get("other"), folder.get("net"), "{other:?}");
    }
    let from_input = folder.fed("through - -o -", plain.as_bytes());
    assert_eq!(from_input.stdout, folder.get("net"));
}

/// Details of another size than the one to which the coarse net is refined.
#[test]
fn details_of_another_net() {
    let folder = Folder::new("texts-other");
    let coarse = [0; record::numbers((3, 2))];
    folder.put("coarse", netfile::file(&coarse, (3, 2)));
    for size in [(3, 3), (5, 5), (3, 5), (3, 2), (6, 4), (7, 3)] {
        let zeros = vec![0; record::details(size)];
        folder.put("text", text(&zeros, size));
        folder.fails("merge coarse text -o out", "text: line 1: ");
    }
    folder.put("text", text(&[0; record::details((5, 3))], (5, 3)));
    folder.silent("merge coarse text -o out");
}
