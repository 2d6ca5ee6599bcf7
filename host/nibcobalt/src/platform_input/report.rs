//! What a router answers.

use super::{InputDeviceId, PlatformInputEvent};
use crate::{ArbitrationResult, CompositionPointerId, SurfaceHandle, ViewInputReleaseReport};

/// The end of a press whose own end never comes.
#[derive(Clone, Debug, Eq, PartialEq)]
pub enum SynthesizedInputRelease {
    /// A pointer's press is cancelled.
    PointerCancel {
        /// The pointer.
        pointer: CompositionPointerId,
        /// The surface that took it last.
        surface: SurfaceHandle,
    },
    /// A key goes up.
    KeyUp {
        /// The key's device.
        device: InputDeviceId,
        /// The key.
        physical_key: u32,
        /// The surface that took it last.
        surface: SurfaceHandle,
    },
    /// A gamepad is gone.
    GamepadDisconnected {
        /// The gamepad.
        device: InputDeviceId,
        /// The surface that took it last.
        surface: SurfaceHandle,
    },
}

/// What came of an event.
#[derive(Clone, Debug, Eq, PartialEq)]
pub struct PlatformInputRoutingReport {
    /// The event, as it was handed in.
    pub event: PlatformInputEvent,
    /// Which surfaces got it; none for a disconnect or a view's loss.
    pub arbitration: Option<ArbitrationResult>,
    /// The presses that it ended, each once.
    pub synthesized_releases: Vec<SynthesizedInputRelease>,
    /// What a view's loss let go.
    pub view_release: Option<ViewInputReleaseReport>,
    /// The registry's revision afterwards.
    pub composition_revision: u64,
}
