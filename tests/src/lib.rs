//! Tests of the library `ups` against exact rational arithmetic.
//!
//! `oracle` writes the definitions down in exact rationals, `de_casteljau` the steps of source
//! document 000 to a point, `refinement` the definitions of refinement, `multiresolution` those of
//! split, merge and clean, `outlines` those of outlines, of which `shapes` has some, `hermite`
//! those of nets through given points, `seam` those of the points on both sides of a seam, and
//! `netfile` those of the net file. `kernel` calls the library with guarded memory, `call` asks
//! both the same question, `safe` asks it of the crate `ups`, `order` puts several of the `faults`
//! into a call, `random_calls` and `changes` change calls and files, `mirror` negates coordinates
//! of calls and answers, `lending` lends slices of length 0, `declarations` compares what the texts
//! of the repository say of the library. `record` alone says how many numbers a net has for a
//! control point and for a vertex, and how many details and given numbers there are for a vertex. A
//! further subject of the library gets its own definitions in `oracle` or a module of its own, its
//! own wrappers in `kernel` and `safe` and a case of `call::Ask`.

pub mod call;
pub mod changes;
pub mod de_casteljau;
pub mod declarations;
pub mod faults;
pub mod hermite;
pub mod kernel;
pub mod lending;
pub mod mirror;
pub mod multiresolution;
pub mod netfile;
pub mod nets;
pub mod oracle;
pub mod order;
pub mod outlines;
pub mod pages;
pub mod random;
pub mod random_calls;
pub mod rational;
pub mod record;
pub mod refinement;
pub mod safe;
pub mod seam;
pub mod shapes;
