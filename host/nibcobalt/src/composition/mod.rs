//! Windows, views and surfaces of a session, and which surfaces get an event: the names of the source's
//! `composition.rs`.

mod arbitration;
mod error;
mod geometry;
mod limits;
mod metrics;
mod registry;
mod reports;
mod surface;

pub use arbitration::*;
pub use error::*;
pub use geometry::*;
pub use limits::*;
pub use metrics::*;
pub use registry::*;
pub use reports::*;
pub use surface::*;
