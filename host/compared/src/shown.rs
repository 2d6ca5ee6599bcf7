//! The answer of one side to a call: REFUSALS.md's number, and the whole result as text.

use std::fmt::Debug;

#[derive(Clone, Debug, Eq, PartialEq)]
pub struct Shown {
    pub number: u64,
    pub text: String,
}

/// A refusal of either side.
pub trait Refusal: Debug {
    fn number(&self) -> u64;
}

impl Refusal for nibcobalt::CompositionError {
    fn number(&self) -> u64 {
        nibcobalt::CompositionError::number(*self)
    }
}

impl Refusal for nibcobalt::PlatformInputError {
    fn number(&self) -> u64 {
        nibcobalt::PlatformInputError::number(*self)
    }
}

impl Refusal for comparison::CompositionError {
    fn number(&self) -> u64 {
        comparison::answer::composition_number(*self).into()
    }
}

impl Refusal for comparison::platform_input::PlatformInputError {
    fn number(&self) -> u64 {
        comparison::answer::router_number(*self).into()
    }
}

/// A result with its names, types and fields, which both sides have in common.
pub fn result<T: Debug, E: Refusal>(result: Result<T, E>) -> Shown {
    let number = result.as_ref().err().map_or(0, E::number);
    Shown { number, text: format!("{result:?}") }
}

/// A result of which only the refusal's number is known.
pub fn numbered<T: Debug>(result: Result<T, u64>) -> Shown {
    Shown { number: *result.as_ref().err().unwrap_or(&0), text: format!("{result:?}") }
}

pub fn value<T: Debug>(value: T) -> Shown {
    Shown { number: 0, text: format!("{value:?}") }
}

/// What the source does not have and the comparison adds to it.
pub fn port_limit() -> Shown {
    Shown { number: 41, text: "Err(PortLimit)".to_string() }
}
