//! The front of an answer, which every call has: docs/HOSTING.md has its order.

use super::reader::Reader;
use crate::{
    ArbitrationResult, CompositionError, CompositionPointerId, GenerationalHandle, InputDelivery,
    PlatformInputError, SurfaceHandle, SynthesizedInputRelease,
};

/// What came of a routed event, the first number that its answer shows: its device is gone.
pub const ROUTED_DISCONNECTED: u64 = 0;
/// The event was arbitrated.
pub const ROUTED_ARBITRATED: u64 = 1;
/// The event's view lost its focus or is not seen any more.
pub const ROUTED_VIEW_RELEASED: u64 = 2;

/// An answer. What a call does not answer is none or empty.
pub struct Answer<'a> {
    /// 0, or the refusal's number.
    pub number: u64,
    /// The registry's revision after the call.
    pub revision: u64,
    pub consumer: Option<SurfaceHandle>,
    pub deliveries: Vec<InputDelivery>,
    pub releases: Vec<SynthesizedInputRelease>,
    pub captures: Vec<(CompositionPointerId, SurfaceHandle)>,
    handle: Option<GenerationalHandle>,
    /// What the call shows besides.
    pub more: Reader<'a>,
}

impl<'a> Answer<'a> {
    pub fn read(bytes: &'a [u8]) -> Self {
        let mut more = Reader::of(bytes);
        Self {
            number: more.number(),
            revision: more.number(),
            consumer: more.optional(),
            deliveries: more.list(Reader::delivery),
            releases: more.list(Reader::release),
            captures: more.list(Reader::capture),
            handle: more.optional(),
            more,
        }
    }

    /// The answer to a call on the registry, where it was accepted.
    pub fn of_registry(self) -> Result<Self, CompositionError> {
        match self.number {
            0 => Ok(self),
            number => Err(CompositionError::of(number)),
        }
    }

    /// The answer to a call on the router, where it was accepted.
    pub fn of_router(self) -> Result<Self, PlatformInputError> {
        match self.number {
            0 => Ok(self),
            number => Err(PlatformInputError::of(number)),
        }
    }

    /// The handle that the call names.
    pub fn handle(&self) -> GenerationalHandle {
        self.handle.expect("the answer names a handle")
    }

    pub fn arbitration(self) -> ArbitrationResult {
        ArbitrationResult {
            revision: self.revision,
            deliveries: self.deliveries,
            consumed_by: self.consumer,
        }
    }
}
