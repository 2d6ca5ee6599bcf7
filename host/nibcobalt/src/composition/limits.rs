//! The configured limits of a registry.

/// How much a registry may hold.
#[derive(Clone, Copy, Debug, Eq, PartialEq)]
pub struct CompositionLimits {
    /// The most windows.
    pub max_windows: usize,
    /// The most views.
    pub max_views: usize,
    /// The most surfaces.
    pub max_surfaces: usize,
    /// The most surfaces of one view.
    pub max_surfaces_per_view: usize,
    /// The most traces; the oldest drops out.
    pub max_trace_entries: usize,
}

impl CompositionLimits {
    /// The greatest limits that a start accepts here; the source has no such bound. A greater one is
    /// [`CompositionError::PortLimit`](crate::CompositionError::PortLimit).
    pub const PORT: Self = Self {
        max_windows: 8,
        max_views: 16,
        max_surfaces: 64,
        max_surfaces_per_view: 16,
        max_trace_entries: 32,
    };
}

/// The source's values. They are above [`CompositionLimits::PORT`], so a start with them is refused.
impl Default for CompositionLimits {
    fn default() -> Self {
        Self {
            max_windows: 16,
            max_views: 64,
            max_surfaces: 256,
            max_surfaces_per_view: 32,
            max_trace_entries: 1024,
        }
    }
}
