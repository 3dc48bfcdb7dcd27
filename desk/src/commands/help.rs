//! What `--help` says: of each command a line for the list, and its own text.

pub const CHECK: [&str; 2] = [
    "tells what a net file is, and what refining it needs",
    "\
usage: ups check FILE [--outline OUTLINE]

Tells the size of the net in FILE, the range of each coordinate and, for each depth that refining
accepts, the refined size and the lengths that it needs; or why it is refused.

  --outline OUTLINE  also checks this outline: raw bytes, one a triangle, 1 present and 0 missing
",
];

pub const LIST: [&str; 2] = [
    "lists the surface points of the refined net's vertices",
    "\
usage: ups list FILE [-k K] [--outline OUTLINE]

Refines the net in FILE and lists `net`, width and height, then column, row and x, y, z of the
surface point for each vertex, row by row, in units of 1/1024 mm.

  -k K               steps of refining, 0 to 6; 1 where not given
  --outline OUTLINE  only vertices on the door
",
];

pub const POINT: [&str; 2] = [
    "tells the surface point at a place",
    "\
usage: ups point FILE P Q [-k K] [--mm] [--outline OUTLINE]

Tells x, y, z of the surface point at place (P, Q), which counts 1,024ths of an edge.

  -k K               at that place of the net after K steps of refining, 0 to 6
  --mm               in millimetres; else in units of 1/1024 mm
  --outline OUTLINE  refuses a place off the door
",
];

pub const WALK: [&str; 2] = [
    "tells the points of a line, one after another",
    "\
usage: ups walk FILE --along LINE [-k K] [--step N] [--outline OUTLINE]

Tells p, q, x, y, z of one place of the line after another, from its lower or left end on.

  --along LINE       bottom, top, left, right, row J or column I of the net in FILE
  -k K               on the net after K steps of refining, 0 to 6; 0 where not given
  --step N           from place to place, in 1,024ths of its edges; 1024 where not given
  --outline OUTLINE  only places on the door
",
];

pub const REFINE: [&str; 2] = [
    "writes the refined net",
    "\
usage: ups refine FILE -k K -o OUT [--outline OUTLINE --fine-outline OUT]

Refines the net in FILE and writes the file of the refined net.

  -k K                steps of refining, 0 to 6
  -o OUT              the refined net
  --outline OUTLINE   refines this outline too
  --fine-outline OUT  the refined outline
",
];

pub const SEAM: [&str; 2] = [
    "tells how far two refinements are apart along a line",
    "\
usage: ups seam FILE -k K -l L --along LINE [-o SVG] [--outline OUTLINE]

Compares the net after K and after L steps of refining at every place of the line that both have.
Tells the count of places, for each coordinate the greatest difference and its first place on both
sides, and the allowance that is proved, in units of 1/1024 mm.

  -k K, -l L         steps of refining, 0 to 6
  --along LINE       bottom, top, left, right, row J or column I of the net in FILE
  -o SVG             draws the differences and the allowance
  --outline OUTLINE  only places on the door
",
];

pub const MESH: [&str; 2] = [
    "writes the surface as a mesh, for other programs",
    "\
usage: ups mesh FILE -k K -o MESH [--outline OUTLINE]

Writes the surface points of the refined net's vertices, in millimetres, and its triangles.

  -k K               steps of refining, 0 to 6
  -o MESH            a name that ends in .stl (binary), .obj or .ply; - is STL
  --outline OUTLINE  only the triangles that are present
",
];

pub const PICTURE: [&str; 2] = [
    "draws the door",
    "\
usage: ups picture FILE -o SVG [-k K] [--net] [--outline OUTLINE]

Draws the surface at an angle, shaded, with axes in millimetres.

  -o SVG             the drawing
  -k K               steps of refining, 0 to 6; where not given, as many as make it smooth
  --net              with the control triangles of the net in FILE over it
  --outline OUTLINE  only the triangles that are present
",
];

pub const SPLIT: [&str; 2] = [
    "takes a net apart into a coarse net and details",
    "\
usage: ups split FILE -o COARSE -d DETAILS

Writes the coarse net of the net in FILE, which has odd sides, and the details as text: a line with
width and height of the net, then nine whole numbers a line for each vertex.

  -o COARSE   the coarse net
  -d DETAILS  the details
",
];

pub const MERGE: [&str; 2] = [
    "puts a coarse net and details together",
    "\
usage: ups merge COARSE DETAILS -o OUT

Refines the coarse net once, adds the details and writes the net.

  -o OUT  the net
",
];

pub const CLEAN: [&str; 2] = [
    "sets small details to 0",
    "\
usage: ups clean DETAILS -t T -o OUT

Sets each detail whose size is below T to 0 and writes the details.

  -t T    the threshold, in units of 1/1024 mm
  -o OUT  the details
",
];

pub const THROUGH: [&str; 2] = [
    "makes the net through given points",
    "\
usage: ups through POINTS -o OUT

Reads given points, a line with width and height, then a line for each vertex, row by row, with x,
y, z of its point and of two vectors, and writes the net with c1 = p + t1, c2 = p + t2 and
c3 = p - t1 - t2.

  -o OUT  the net
",
];
