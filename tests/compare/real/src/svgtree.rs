//! The Rust: mod.rs as it is, which takes names.rs, parse.rs and text.rs from its own folder, and beside it a module that looks into a
//! tree.
include!(concat!(env!("SVGTREE_RUST"), "/mod.rs"));

pub(crate) mod seen;
