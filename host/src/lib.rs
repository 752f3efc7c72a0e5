//! SVG files for the sealed panel.
//!
//! A [`Drawing`] is what the panel takes of an SVG file: a script of commands, and the strings that they have. A [`Tree`] is what the panel
//! holds for it: it is built, a text of it is exchanged, and the four questions are asked of it. A [`Refusal`] is the number that the
//! library answers with, and prints the words of docs/MANUAL.md. [`check`], [`build`], [`exchange`] and [`Tables`] are the library's own
//! operations, over slices.
//!
//! ```
//! use storkvanity::Drawing;
//!
//! let drawing = Drawing::from_xml("<svg xmlns='http://www.w3.org/2000/svg'><text>12 kg</text></svg>")?;
//! storkvanity::check(drawing.script(), drawing.characters())?;
//! # Ok::<(), Box<dyn std::error::Error>>(())
//! ```
#![deny(unsafe_code)]
#![warn(missing_docs)]

pub mod commands;
mod drawing;
mod library;
pub mod names;
pub mod readings;
mod refusal;
pub mod refused;
pub mod spell;
mod style;
pub mod texts;
mod tree;

pub use drawing::{Drawing, Fault};
pub use library::{build, check, exchange, Counts, Lent, Tables};
pub use refusal::Refusal;
pub use tree::{Entry, Kind, Origin, Tree};
