//! Events of devices, the presses that they open, and what is released when a device, a view or a surface goes: the
//! names of the source's `platform_input.rs`.

mod error;
mod event;
mod report;
mod router;

pub use error::*;
pub use event::*;
pub use report::*;
pub use router::*;
