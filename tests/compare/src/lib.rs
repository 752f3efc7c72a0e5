//! The Rust itself, and cases to compare the port's library with it.
// Without the Rust only the list is replayed.
#![cfg_attr(not(feature = "rust"), allow(dead_code))]
pub mod codes;
pub mod commands;
pub mod library;
pub mod questions;
pub mod record;

#[cfg(feature = "rust")]
pub mod case;
#[cfg(feature = "rust")]
pub mod events;
#[cfg(feature = "rust")]
pub mod files;
#[cfg(feature = "rust")]
pub mod generate;
#[cfg(feature = "rust")]
pub mod limits;
#[cfg(feature = "rust")]
mod outside;
#[cfg(feature = "rust")]
pub mod places;
#[cfg(feature = "rust")]
pub mod run;
#[cfg(feature = "rust")]
pub mod rust;
#[cfg(feature = "rust")]
pub mod shrink;
#[cfg(feature = "rust")]
pub mod small;
#[cfg(feature = "rust")]
#[allow(warnings)]
pub mod svgtree;
#[cfg(feature = "rust")]
pub mod vectors;

#[cfg(feature = "rust")]
use outside::*;
