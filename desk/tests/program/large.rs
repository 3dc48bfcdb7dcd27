//! Every command once on nets of 1,025 by 1,025: it is accepted, and the counts are right.

use crate::running::{Folder, Size};
use crate::svg::{elements, of_class};
use crate::texts::text;
use ups_tests::netfile;
use ups_tests::random::Random;
use ups_tests::record;
use ups_tests::refinement;
use ups_tests::shapes;

const SIZE: Size = (1025, 1025);
const VERTICES: usize = 1025 * 1025;
const TRIANGLES: usize = 2 * 1024 * 1024;

/// A regular net with some noise, of small numbers, so that its texts are short.
fn numbers((w, h): Size) -> Vec<i32> {
    let mut random = Random::new(431);
    let mut numbers = Vec::with_capacity(record::numbers((w, h)));
    for j in 0..h as i32 {
        for i in 0..w as i32 {
            let z = random.between(-9, 9);
            let (x, y) = (64 * i, 64 * j);
            numbers.extend([x + 32, y, z, x - 32, y + 32, -z, x, y - 32, z]);
        }
    }
    numbers
}

/// A folder with the net and with an outline of it, of rows that end alternately on the right and
/// on the left.
fn folder(name: &str) -> (Folder, Vec<i32>) {
    let folder = Folder::new(name);
    let numbers = numbers(SIZE);
    folder.put_net("net", &numbers, SIZE);
    folder.put("outline", shapes::snake(SIZE));
    (folder, numbers)
}

/// The count of present triangles: every second row of cells, and a cell between two of them.
const PRESENT: usize = 2 * (512 * 1024 + 512);

/// The files are large.
fn clear(folder: &Folder) {
    for name in folder.names() {
        folder.remove(&name);
    }
}

#[test]
fn check_list_point_and_walk() {
    let (folder, numbers) = folder("large-points");
    let printed = folder.printed("check net --outline outline");
    assert!(printed.starts_with("net 1025 by 1025, 9455625 numbers, 37822512 bytes\n"));
    assert!(printed.contains(&format!(
        "\noutline of {TRIANGLES} triangles, {PRESENT} present\n"
    )));
    assert!(printed.ends_with("\n0 1025 1025 9455625 0 2097152 2097152\n"));
    let list = folder.printed("list net -k 0");
    let lines: Vec<&str> = list.lines().collect();
    assert_eq!(lines.len(), 1 + VERTICES);
    assert_eq!(lines[0], "net 1025 1025");
    let mut random = Random::new(432);
    for _ in 0..50 {
        let (i, j) = (random.below(1025), random.below(1025));
        let place = (1024 * i, 1024 * j);
        let [x, y, z] = refinement::point_of(&numbers, SIZE, place);
        assert_eq!(lines[1 + 1025 * j + i], format!("{i} {j} {x} {y} {z}"));
    }
    let walk = folder.printed("walk net --along row 1000");
    assert_eq!(walk.lines().count(), 1025);
    let [x, y, z] = refinement::point_of(&numbers, SIZE, (307_200, 1_024_000));
    let due = format!("307200 1024000 {x} {y} {z}");
    assert_eq!(walk.lines().nth(300), Some(due.as_str()));
    let [x, y, z] = refinement::point_of(&numbers, SIZE, (1_048_576, 776_753));
    let point = folder.printed("point net 1048576 776753 --outline outline");
    assert_eq!(point, format!("{x} {y} {z}\n"));
    clear(&folder);
}

#[test]
fn refine_seam_and_picture() {
    let (folder, _) = folder("large-pictures");
    folder.silent("refine net -k 0 -o out --outline outline --fine-outline fine");
    assert!(folder.get("out") == folder.get("net"));
    assert!(folder.get("fine") == folder.get("outline"));
    folder.refuses("refine net -k 1 -o other", 4);
    let seam = folder.printed("seam net -k 0 -l 0 --along top -o drawing");
    assert!(seam.starts_with("places 1048577\nx 0 at 0 1048576 and 0 1048576\n"));
    let drawing = elements(&folder.get("drawing"));
    assert_eq!(of_class(&drawing, "d").len(), 3);
    // Every eighth column and row of the facets, every 32nd of the control triangles.
    folder.silent("picture net -o picture --net");
    let picture = elements(&folder.get("picture"));
    assert_eq!(of_class(&picture, "f").len(), 2 * 128 * 128);
    assert_eq!(of_class(&picture, "c").len(), 33 * 33);
    clear(&folder);
}

#[test]
fn meshes() {
    let (folder, _) = folder("large-meshes");
    folder.silent("mesh net -k 0 -o mesh.stl");
    let stl = folder.get("mesh.stl");
    assert_eq!(stl.len(), 84 + 50 * TRIANGLES);
    assert_eq!(stl[80..84], (TRIANGLES as u32).to_le_bytes());
    folder.remove("mesh.stl");
    folder.silent("mesh net -k 0 -o mesh.ply --outline outline");
    let ply = crate::mesh_files::ply(&folder.get("mesh.ply"));
    assert_eq!(ply.faces.len(), PRESENT);
    // Two rows of vertices for each row of cells, the last alone.
    assert_eq!(ply.vertices.len(), 1025 * 1024 + 2);
    folder.silent("mesh net -k 0 -o mesh.obj");
    let obj = folder.get("mesh.obj");
    let count = |letter: u8| {
        let lines = obj.split(|&byte| byte == b'\n');
        lines
            .filter(|line| line.starts_with(&[letter, b' ']))
            .count()
    };
    assert_eq!([count(b'v'), count(b'f')], [VERTICES, TRIANGLES]);
    clear(&folder);
}

#[test]
fn split_merge_clean_and_through() {
    let (folder, numbers) = folder("large-splits");
    folder.silent("split net -o coarse -d details");
    assert_eq!(
        Some(folder.get("coarse").len()),
        netfile::file_len(513, 513)
    );
    folder.silent("merge coarse details -o merged");
    assert!(folder.get("merged") == folder.get("net"));
    folder.silent("clean details -t 1000 -o cleaned");
    let cleaned = String::from_utf8(folder.get("cleaned")).expect("text");
    let zeros = "0 0 0 0 0 0 0 0 0";
    let mut lines = cleaned.lines();
    assert_eq!(lines.next(), Some("1025 1025"));
    assert_eq!(lines.filter(|line| *line == zeros).count(), VERTICES);
    // The numbers of a net are given points too.
    folder.put("points", text(&numbers, SIZE));
    folder.silent("through points -o through");
    assert_eq!(
        Some(folder.get("through").len()),
        netfile::file_len(1025, 1025)
    );
    let point = folder.printed("point through 512000 102400");
    let at = 9 * (1025 * 100 + 500);
    let [x, y, z] = [0, 1, 2].map(|n| numbers[at + n]);
    assert_eq!(point, format!("{x} {y} {z}\n"));
    clear(&folder);
}
