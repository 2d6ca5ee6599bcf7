//! One script on two sides in one process: the crate `nibcobalt`, and the unchanged Rust. The answers are compared
//! after every call, and so are both states, which are read from the library's memory and from the Rust's private
//! fields.
//!
//! The reader of scripts is the comparison's own, compiled a second time over this crate's types.

pub use nibcobalt::*;

pub mod both;
pub mod memory;
pub mod raw;
pub mod shown;
pub mod state;

#[path = "../../../comparison/src/fields.rs"]
mod fields;
#[allow(dead_code)]
#[path = "../../../comparison/src/script.rs"]
pub mod script;
