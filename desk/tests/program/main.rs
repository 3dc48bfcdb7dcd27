//! The program `ups` from outside: its arguments, files, texts and statuses, against the oracle of
//! the library's tests and against `docs/PROGRAM.md`. One program, so that it is linked once and
//! its tests share the machine's cores.

mod checking;
mod damaged;
mod damaged_arguments;
mod damaged_texts;
mod drawing;
mod large;
mod lines;
mod listing;
mod mesh_files;
mod meshes;
mod options;
mod outlines;
mod page;
mod pictures;
mod pipes;
mod points;
mod projection;
mod refining;
mod running;
mod seams;
mod splitting;
mod svg;
mod texts;
mod usage;
mod writing;
