//! The size and state of a view.

/// Whether a view is seen.
#[derive(Clone, Copy, Debug, Eq, PartialEq)]
pub enum ViewVisibility {
    /// It is seen.
    Visible,
    /// It is not seen.
    Hidden,
    /// It is not seen and not running.
    Suspended,
}

/// The edges of a view that nothing important should touch, in thousandths.
#[derive(Clone, Copy, Debug, Eq, PartialEq)]
pub struct ViewInsets {
    /// From the top.
    pub top_milli: u32,
    /// From the right.
    pub right_milli: u32,
    /// From the bottom.
    pub bottom_milli: u32,
    /// From the left.
    pub left_milli: u32,
}

/// A view's metrics with their own revision.
#[derive(Clone, Copy, Debug, Eq, PartialEq)]
pub struct ViewMetrics {
    /// The metrics' own revision; a fresh view's is 1.
    pub revision: u64,
    /// The left edge, in thousandths.
    pub origin_x_milli: i32,
    /// The top edge, in thousandths.
    pub origin_y_milli: i32,
    /// The width, in thousandths.
    pub width_milli: u32,
    /// The height, in thousandths.
    pub height_milli: u32,
    /// The framebuffer's width, in pixels.
    pub framebuffer_width: u32,
    /// The framebuffer's height, in pixels.
    pub framebuffer_height: u32,
    /// The scale in 65,536ths, not 0.
    pub scale_q16: u32,
    /// The safe area's edges.
    pub safe_area: ViewInsets,
    /// Whether the view is seen.
    pub visibility: ViewVisibility,
}

/// The metrics of a fresh view.
impl Default for ViewMetrics {
    fn default() -> Self {
        Self {
            revision: 1,
            origin_x_milli: 0,
            origin_y_milli: 0,
            width_milli: 0,
            height_milli: 0,
            framebuffer_width: 0,
            framebuffer_height: 0,
            scale_q16: 1 << 16,
            safe_area: ViewInsets { top_milli: 0, right_milli: 0, bottom_milli: 0, left_milli: 0 },
            visibility: ViewVisibility::Hidden,
        }
    }
}

/// New metrics of a view, without their revision.
#[derive(Clone, Copy, Debug, Eq, PartialEq)]
pub struct ViewMetricsUpdate {
    /// The left edge, in thousandths.
    pub origin_x_milli: i32,
    /// The top edge, in thousandths.
    pub origin_y_milli: i32,
    /// The width, in thousandths.
    pub width_milli: u32,
    /// The height, in thousandths.
    pub height_milli: u32,
    /// The framebuffer's width, in pixels.
    pub framebuffer_width: u32,
    /// The framebuffer's height, in pixels.
    pub framebuffer_height: u32,
    /// The scale in 65,536ths, not 0.
    pub scale_q16: u32,
    /// The safe area's edges.
    pub safe_area: ViewInsets,
    /// Whether the view is seen.
    pub visibility: ViewVisibility,
}
