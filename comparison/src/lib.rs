//! The unchanged Rust behind the replay format: a driver, a script generator and a comparison.

extern crate alloc;
// The two files name the crate they take the handle types from; here this crate plays its part.
extern crate self as vo_app_protocol;

pub mod answer;
pub mod calls;
pub mod compare;
pub mod coverage;
pub mod dump;
pub mod faults;
mod fields;
pub mod generate;
mod handle;
pub mod limits;
mod link;
pub mod no_calls;
pub mod odd;
pub mod program;
pub mod record;
pub mod script;
pub mod shrink;

/// The registry, as it stands in the source folder, and read access to its private fields.
#[allow(dead_code)]
pub mod composition {
    include!(concat!(env!("VOLANG_SRC_FOLDER"), "/lang/crates/vo-app-runtime/src/composition.rs"));
    pub mod access;
}

/// The router, as it stands in the source folder, and read access to its private fields.
#[allow(dead_code)]
pub mod platform_input {
    include!(concat!(
        env!("VOLANG_SRC_FOLDER"),
        "/lang/crates/vo-app-runtime/src/platform_input.rs"
    ));
    pub mod access;
}

pub use composition::*;
pub use handle::*;

/// The router's file names this type in one report that no call here makes.
#[derive(Clone, Debug, Eq, PartialEq)]
pub struct GraphicsSurfaceLease;

/// The folder with the Rust sources.
pub const SOURCES: &str = env!("VOLANG_SRC_FOLDER");

#[cfg(test)]
mod tests;
