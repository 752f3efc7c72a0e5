//! What the tests and the benchmark share: check and the questions in plain Rust, the port's library, and inputs for both.
pub mod built;
pub mod check;
pub mod edges;
pub mod json;
pub mod library;
pub mod names;
pub mod questions;
pub mod random;
pub mod recorded;
pub mod rooms;
pub mod scripts;
pub mod smaller;
pub mod tables;
pub mod texts;
