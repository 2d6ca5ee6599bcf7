//! Surfaces (panels in RULES.md) and their registrations of system shortcuts.

use super::SurfaceGeometry;
use crate::{SurfaceHandle, ViewHandle};

/// What a surface shows. It is stored and has no effect.
#[derive(Clone, Copy, Debug, Eq, PartialEq)]
pub enum SurfaceKind {
    /// A game.
    Game,
    /// A user interface.
    Ui,
    /// Diagnostics.
    Diagnostics,
}

/// Which events a surface gets, and whether it keeps them from those below.
#[derive(Clone, Copy, Debug, Eq, PartialEq)]
pub enum SurfaceInputPolicy {
    /// Gets every event, as an observer.
    Observe,
    /// Gets the events that target it and lets them through.
    Passthrough,
    /// Gets the events that target it and consumes them.
    Interactive,
    /// Gets every event and consumes it.
    Exclusive,
}

/// From where a system shortcut reaches a surface.
#[derive(Clone, Copy, Debug, Eq, PartialEq)]
pub enum ShortcutScope {
    /// From its own view.
    View,
    /// From any view of its window.
    Window,
    /// From everywhere.
    Session,
}

/// A surface's wish for system shortcuts.
#[derive(Clone, Copy, Debug, Eq, PartialEq)]
pub struct SurfaceShortcutRegistration {
    /// The classes of shortcuts, one bit each; not 0.
    pub class_mask: u64,
    /// From where they reach the surface.
    pub scope: ShortcutScope,
    /// The greatest priority wins.
    pub priority: i16,
}

/// What a surface is attached with.
#[derive(Clone, Copy, Debug, Eq, PartialEq)]
pub struct SurfaceDescriptor {
    /// The view that it stands in.
    pub view: ViewHandle,
    /// What it shows.
    pub kind: SurfaceKind,
    /// Greater is higher; ties go by handle.
    pub z_order: i32,
    /// Which events it gets.
    pub input: SurfaceInputPolicy,
    /// Whether it accepts text.
    pub accepts_text: bool,
    /// Where it lies.
    pub geometry: SurfaceGeometry,
}

/// A surface of a view with its descriptor.
#[derive(Clone, Copy, Debug, Eq, PartialEq)]
pub struct SurfaceLayer {
    /// The surface.
    pub surface: SurfaceHandle,
    /// Its descriptor.
    pub descriptor: SurfaceDescriptor,
}
