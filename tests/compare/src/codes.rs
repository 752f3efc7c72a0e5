//! The names in the order of their codes, from the project's lists of them, tools/names.lists; the Rust spells them in the same order.
#[cfg(feature = "rust")]
use crate::svgtree::{AId, EId};

include!(concat!(env!("OUT_DIR"), "/codes.rs"));
