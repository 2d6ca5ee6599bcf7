//! The handle type and its aliases, as `vo_app_protocol` names them.

/// Names a slot and the generation of what stands in it. Ordered by index, then generation.
#[derive(Clone, Copy, Debug, Eq, Hash, Ord, PartialEq, PartialOrd)]
#[repr(C)]
pub struct GenerationalHandle {
    /// The slot's place in its table.
    pub index: u32,
    /// The slot's generation when the handle was issued.
    pub generation: u32,
}

impl GenerationalHandle {
    /// The handle of no slot.
    pub const INVALID: Self = Self { index: u32::MAX, generation: 0 };

    /// Whether some slot could have issued the handle.
    pub const fn is_valid(self) -> bool {
        self.generation != 0 && self.index != u32::MAX
    }
}

/// The handle of a session, which owns a registry.
pub type SessionHandle = GenerationalHandle;
/// The handle of a window.
pub type WindowHandle = GenerationalHandle;
/// The handle of a view.
pub type ViewHandle = GenerationalHandle;
/// The handle of a surface, which RULES.md calls a panel.
pub type SurfaceHandle = GenerationalHandle;
