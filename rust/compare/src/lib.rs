//! The library beside the Rust original: texts (`families`, `grammar`, `pieces`), what document 01 has an operation answer on each (`judge`, `model`,
//! `attribution`), and the calls that are held to it (`guarded`, `trial`). `cases` is the list that the program `replay` replays.
pub mod attribution;
pub mod cases;
pub mod families;
pub mod grammar;
pub mod guarded;
pub mod judge;
pub mod model;
pub mod pieces;
pub mod shrink;
pub mod trial;
