//! The Rust that this repository ports, run unchanged behind document 01's script, limits and refusals.
//!
//! `schematic` and `symbol` are the published files themselves, over stand-ins for the crates they use. `original` puts
//! document 01's replies before the Rust's edits; `model` is document 01 once more, written from its words alone, and
//! `file` the saved drawing of document 02, of which the Rust knows nothing.

pub mod commands;
pub mod compare;
pub mod drawing;
pub mod file;
pub mod generate;
pub mod list;
pub mod minimise;
pub mod model;
pub mod netlist;
pub mod orientation;
pub mod original;
pub mod program;
pub mod refusal;
pub mod rows;
pub mod sample;
pub mod script;
pub mod shapes;
pub mod symbols;

// The published files as they stand: not even their layout is touched.
#[allow(dead_code)]
#[path = "../../docs/src/crates/zuse-rs/src/schematic.rs"]
#[rustfmt::skip]
pub mod schematic;
#[allow(dead_code)]
#[path = "../../docs/src/crates/zuse-rs/src/symbol.rs"]
#[rustfmt::skip]
pub mod symbol;
