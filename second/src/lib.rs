//! A second program for the swap table that docs/SCOPE.md asks for.
//!
//! It is written from the requirements' definitions and shares nothing with the
//! proved library. It makes cases for the probe and series of changes, says
//! what must be printed for them, lists stored files, tells the way to the root
//! and the length of a tree path on the networks that they hold, and writes
//! sample files.

pub mod answers;
pub mod block;
pub mod cases;
pub mod change;
pub mod check;
pub mod ends;
pub mod faults;
pub mod file;
pub mod file_faults;
pub mod filed;
pub mod forward;
pub mod harbour;
pub mod limits;
pub mod listing;
pub mod mangle;
pub mod map;
pub mod named;
pub mod network;
pub mod probe;
pub mod quay;
pub mod random;
pub mod reader;
pub mod refusal;
pub mod rng;
pub mod routes;
pub mod samples;
pub mod series;
pub mod shapes;
pub mod table;
pub mod terms;
pub mod ties;
pub mod tree;
