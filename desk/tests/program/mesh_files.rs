//! Readers of meshes by their public formats: binary STL, binary PLY and OBJ.

/// Three vertices of a mesh, each by its number.
pub type Face = [usize; 3];
/// x, y, z in units of 1/1024 mm.
pub type Units = [i32; 3];

/// The vertices, of which STL has three a triangle, and the triangles.
pub struct Mesh {
    pub vertices: Vec<Units>,
    pub faces: Vec<Face>,
    /// The normals of STL.
    pub normals: Vec<[f32; 3]>,
}

/// Takes numbers from the front of some bytes, low byte first.
struct Bytes<'a> {
    left: &'a [u8],
}

impl<'a> Bytes<'a> {
    fn take(&mut self, count: usize) -> &'a [u8] {
        let (taken, left) = self.left.split_at(count);
        self.left = left;
        taken
    }

    fn four(&mut self) -> [u8; 4] {
        self.take(4).try_into().expect("four bytes")
    }

    fn count(&mut self) -> usize {
        u32::from_le_bytes(self.four()) as usize
    }

    fn float(&mut self) -> f32 {
        f32::from_le_bytes(self.four())
    }

    /// Millimetres, which must be a whole count of units; a zero has no sign.
    fn units(&mut self) -> i32 {
        let float = self.float();
        let units = f64::from(float) * 1024.0;
        assert_eq!(units.fract(), 0.0, "{float} mm");
        let whole = units as i32;
        assert_eq!(float.to_bits(), (whole as f32 / 1024.0).to_bits());
        whole
    }

    fn point(&mut self) -> Units {
        [0; 3].map(|_| self.units())
    }
}

/// A header of 80 bytes, a count, and of each triangle its normal, its corners and two bytes.
pub fn stl(file: &[u8]) -> Mesh {
    let mut bytes = Bytes { left: file };
    let header = bytes.take(80);
    assert!(!header.starts_with(b"solid"), "that is a text STL");
    let count = bytes.count();
    let mut mesh = Mesh {
        vertices: Vec::with_capacity(3 * count),
        faces: Vec::with_capacity(count),
        normals: Vec::with_capacity(count),
    };
    for n in 0..count {
        mesh.normals.push([0; 3].map(|_| bytes.float()));
        let corners = [0; 3].map(|_| bytes.point());
        mesh.vertices.extend(corners);
        mesh.faces.push([3 * n, 3 * n + 1, 3 * n + 2]);
        assert_eq!(bytes.take(2), [0, 0], "the bytes after a triangle");
    }
    assert!(bytes.left.is_empty(), "{} more bytes", bytes.left.len());
    mesh
}

/// The header's lines and what follows them.
fn ply_header(file: &[u8]) -> (Vec<&str>, &[u8]) {
    let end = b"\nend_header\n";
    let at = file.windows(end.len()).position(|bytes| bytes == end);
    let at = at.expect("the end of the header");
    let text = std::str::from_utf8(&file[..at]).expect("text");
    (text.lines().collect(), &file[at + end.len()..])
}

/// The counts of vertices and faces that a header states; it must state what the reader takes.
fn ply_counts(header: &[&str]) -> [usize; 2] {
    let lines = header.iter().filter(|line| !line.starts_with("comment"));
    let lines: Vec<&str> = lines.copied().collect();
    let list = lines[7]
        .strip_prefix("property list uchar ")
        .expect("a list");
    let (kind, name) = list.split_once(' ').expect("a kind and a name");
    assert!(["int", "uint", "int32", "uint32"].contains(&kind), "{kind}");
    assert!(["vertex_indices", "vertex_index"].contains(&name), "{name}");
    assert_eq!(lines.len(), 8);
    assert_eq!(lines[..2], ["ply", "format binary_little_endian 1.0"]);
    let axes = ["property float x", "property float y", "property float z"];
    assert_eq!(lines[3..6], axes);
    [("element vertex ", 2), ("element face ", 6)].map(|(element, at)| {
        let count = lines[at].strip_prefix(element).expect("an element");
        count.parse().expect("a count")
    })
}

pub fn ply(file: &[u8]) -> Mesh {
    let (header, left) = ply_header(file);
    let [vertices, faces] = ply_counts(&header);
    let mut bytes = Bytes { left };
    let vertices: Vec<Units> = (0..vertices).map(|_| bytes.point()).collect();
    let face = |_| {
        assert_eq!(bytes.take(1), [3], "a triangle");
        [0; 3].map(|_| bytes.count())
    };
    let faces: Vec<Face> = (0..faces).map(face).collect();
    assert!(bytes.left.is_empty(), "{} more bytes", bytes.left.len());
    let normals = Vec::new();
    Mesh {
        vertices,
        faces,
        normals,
    }
}

/// The exact value of a decimal of millimetres, which must be a whole count of units.
fn decimal(text: &str) -> i32 {
    let (sign, size) = match text.strip_prefix('-') {
        Some(size) => (-1, size),
        None => (1, text),
    };
    let (whole, part) = size.split_once('.').unwrap_or((size, ""));
    let digits = |text: &str| text.bytes().all(|byte| byte.is_ascii_digit());
    assert!(!whole.is_empty() && digits(whole) && digits(part), "{text}");
    let scale = 10i64.pow(part.len() as u32);
    let parts: i64 = format!("{whole}{part}").parse().expect("a number");
    assert_eq!(1024 * i128::from(parts) % i128::from(scale), 0, "{text} mm");
    let units = i128::from(sign) * 1024 * i128::from(parts) / i128::from(scale);
    assert!(sign == 1 || units != 0, "a zero with a sign");
    i32::try_from(units).expect("a coordinate")
}

/// Lines of vertices and of triangles, whose vertices count from 1; others are not due but
/// comments.
pub fn obj(file: &[u8]) -> Mesh {
    let text = std::str::from_utf8(file).expect("text");
    assert!(text.ends_with('\n'), "the end of a line");
    let (mut vertices, mut faces) = (Vec::new(), Vec::new());
    for line in text.lines().filter(|line| !line.starts_with('#')) {
        let words: Vec<&str> = line.split(' ').collect();
        match words[..] {
            ["v", x, y, z] => vertices.push([x, y, z].map(decimal)),
            ["f", a, b, c] => faces.push([a, b, c].map(|at| {
                let at: usize = at.parse().expect("a vertex");
                at.checked_sub(1).expect("they count from 1")
            })),
            _ => panic!("{line:?}"),
        }
    }
    let normals = Vec::new();
    Mesh {
        vertices,
        faces,
        normals,
    }
}
