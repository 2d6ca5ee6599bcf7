//! Calls as numbers, and answers read from numbers.

mod answer;
pub mod calls;
pub mod events;
mod form;
#[cfg(test)]
mod header;
mod lent;
mod reader;

pub use answer::{Answer, ROUTED_ARBITRATED, ROUTED_DISCONNECTED, ROUTED_VIEW_RELEASED};
pub use form::Form;
pub use lent::{expect_form, Lent};
pub use reader::Reader;
