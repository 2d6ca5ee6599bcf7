//! Where a surface lies. Lengths are thousandths; matrix entries are 65,536ths.

/// A rectangle that excludes its right and bottom edges.
#[derive(Clone, Copy, Debug, Eq, PartialEq)]
pub struct SurfaceRect {
    /// The left edge.
    pub x_milli: i32,
    /// The top edge.
    pub y_milli: i32,
    /// The width, not 0.
    pub width_milli: u32,
    /// The height, not 0.
    pub height_milli: u32,
}

impl SurfaceRect {
    /// Whether the point lies in the rectangle.
    pub fn contains(self, x_milli: i32, y_milli: i32) -> bool {
        let inside = |point: i32, start: i32, length: u32| {
            let (point, start) = (i64::from(point), i64::from(start));
            (start..start + i64::from(length)).contains(&point)
        };
        inside(x_milli, self.x_milli, self.width_milli)
            && inside(y_milli, self.y_milli, self.height_milli)
    }
}

/// The way from a surface's own coordinates to its view's.
#[derive(Clone, Copy, Debug, Eq, PartialEq)]
pub struct SurfaceTransform {
    /// The matrix entry of row 1, column 1.
    pub m11_q16: i32,
    /// The matrix entry of row 1, column 2.
    pub m12_q16: i32,
    /// The matrix entry of row 2, column 1.
    pub m21_q16: i32,
    /// The matrix entry of row 2, column 2.
    pub m22_q16: i32,
    /// The shift to the right.
    pub translate_x_milli: i32,
    /// The shift downwards.
    pub translate_y_milli: i32,
}

/// The identity.
impl Default for SurfaceTransform {
    fn default() -> Self {
        Self {
            m11_q16: 1 << 16,
            m12_q16: 0,
            m21_q16: 0,
            m22_q16: 1 << 16,
            translate_x_milli: 0,
            translate_y_milli: 0,
        }
    }
}

/// Where a surface lies in its view and where it can be hit.
#[derive(Clone, Copy, Debug, Eq, PartialEq)]
pub struct SurfaceGeometry {
    /// The surface's own rectangle; `None` fills the view.
    pub bounds: Option<SurfaceRect>,
    /// A rectangle in the surface's own coordinates outside of which it is not hit.
    pub clip: Option<SurfaceRect>,
    /// The way from the surface's own coordinates to the view's.
    pub transform: SurfaceTransform,
    /// The opacity, 65,535 for an opaque surface. It is stored and has no effect.
    pub opacity_q16: u16,
    /// Whether the surface can be hit at all.
    pub hit_test_enabled: bool,
}

/// A surface that fills its view, is opaque and can be hit.
impl Default for SurfaceGeometry {
    fn default() -> Self {
        Self {
            bounds: None,
            clip: None,
            transform: SurfaceTransform::default(),
            opacity_q16: u16::MAX,
            hit_test_enabled: true,
        }
    }
}
