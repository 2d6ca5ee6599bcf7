//! Events as a registry arbitrates them, and what comes of them.

use crate::{SurfaceHandle, ViewHandle};

/// An event for one view.
#[derive(Clone, Debug, Eq, PartialEq)]
pub enum ArbitrationEvent {
    /// An unnamed pointer over one surface; the view's single capture goes first.
    Pointer {
        /// The surface under the pointer.
        hit: Option<SurfaceHandle>,
    },
    /// An unnamed pointer over several surfaces.
    PointerStack {
        /// The surfaces under the pointer, at most 16.
        hits: Vec<SurfaceHandle>,
    },
    /// A pointer over one surface; the pointer's own capture goes first.
    PointerFor {
        /// The pointer.
        pointer: CompositionPointerId,
        /// The surface under the pointer.
        hit: Option<SurfaceHandle>,
    },
    /// A pointer over several surfaces.
    PointerStackFor {
        /// The pointer.
        pointer: CompositionPointerId,
        /// The surfaces under the pointer, at most 16.
        hits: Vec<SurfaceHandle>,
    },
    /// A key, for the focused surface.
    Keyboard,
    /// A key, for a given surface.
    KeyboardFor {
        /// The surface.
        target: Option<SurfaceHandle>,
    },
    /// A gamepad, for the focused surface.
    Gamepad,
    /// A gamepad, for a given surface.
    GamepadFor {
        /// The surface.
        target: Option<SurfaceHandle>,
    },
    /// Text, for the focused surface if it accepts text.
    Text,
    /// A shortcut, for the focused surface.
    Shortcut,
    /// A system shortcut, for the surface whose registration wins, else for the focused one.
    SystemShortcut {
        /// The shortcut's classes, one bit each.
        class_mask: u64,
    },
}

/// One pointer: a device and a contact of it.
#[derive(Clone, Copy, Debug, Eq, Ord, PartialEq, PartialOrd)]
pub struct CompositionPointerId {
    /// The device, not 0.
    pub device: u64,
    /// The device's generation, not 0.
    pub device_generation: u32,
    /// The contact, not 4,294,967,295.
    pub contact: u32,
}

impl CompositionPointerId {
    /// The pointer of a view's single capture.
    pub const PRIMARY: Self = Self { device: 1, device_generation: 1, contact: 0 };

    /// Whether the pointer may capture.
    pub const fn is_valid(self) -> bool {
        self.device != 0 && self.device_generation != 0 && self.contact != u32::MAX
    }
}

/// A surface that gets an event.
#[derive(Clone, Copy, Debug, Eq, PartialEq)]
pub struct InputDelivery {
    /// The surface.
    pub surface: SurfaceHandle,
    /// Whether it only observes.
    pub observed: bool,
}

/// Which surfaces get an event.
#[derive(Clone, Debug, Eq, PartialEq)]
pub struct ArbitrationResult {
    /// The registry's revision after the event.
    pub revision: u64,
    /// The surfaces, from the top.
    pub deliveries: Vec<InputDelivery>,
    /// The surface that keeps the event from those below.
    pub consumed_by: Option<SurfaceHandle>,
}

/// An arbitration that the registry remembers.
#[derive(Clone, Debug, Eq, PartialEq)]
pub struct CompositionTrace {
    /// The registry's revision after the event.
    pub revision: u64,
    /// The event's view.
    pub view: ViewHandle,
    /// The event.
    pub event: ArbitrationEvent,
    /// The surfaces that got it, from the top.
    pub deliveries: Vec<InputDelivery>,
    /// The surface that kept it from those below.
    pub consumed_by: Option<SurfaceHandle>,
}
