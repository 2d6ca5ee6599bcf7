//! The handle type and its aliases, as vo-app-protocol defines them.
//! That crate's own file cannot be compiled alone: its generated.rs was not supplied.

#[derive(Clone, Copy, Debug, Eq, Hash, Ord, PartialEq, PartialOrd)]
#[repr(C)]
pub struct GenerationalHandle {
    pub index: u32,
    pub generation: u32,
}

impl GenerationalHandle {
    pub const INVALID: Self = Self { index: u32::MAX, generation: 0 };

    pub const fn is_valid(self) -> bool {
        self.generation != 0 && self.index != u32::MAX
    }
}

pub type SessionHandle = GenerationalHandle;
pub type WindowHandle = GenerationalHandle;
pub type ViewHandle = GenerationalHandle;
pub type SurfaceHandle = GenerationalHandle;
