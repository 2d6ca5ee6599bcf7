//! What is let go when a surface closes, a view's input is suspended, or all is shut down.

use crate::{SurfaceHandle, ViewHandle, WindowHandle};

/// Something that a closed surface held.
#[derive(Clone, Copy, Debug, Eq, PartialEq)]
pub enum SurfaceRelease {
    /// The focus of its view.
    Focus,
    /// A pointer capture.
    PointerCapture,
    /// The composition of text.
    ImeComposition,
}

/// What the close of a surface let go.
#[derive(Clone, Debug, Eq, PartialEq)]
pub struct SurfaceCloseReport {
    /// The closed surface.
    pub surface: SurfaceHandle,
    /// What it held.
    pub releases: Vec<SurfaceRelease>,
    /// The surface that got its focus.
    pub restored_focus: Option<SurfaceHandle>,
    /// The registry's revision after the close.
    pub revision: u64,
}

/// Which surfaces hold a view's input.
#[derive(Clone, Copy, Debug, Eq, PartialEq)]
pub struct ViewInputState {
    /// The focused surface.
    pub focused: Option<SurfaceHandle>,
    /// The surface with the view's single capture.
    pub pointer_capture: Option<SurfaceHandle>,
    /// The surface that composes text.
    pub ime: Option<SurfaceHandle>,
}

/// What a view let go when its input was suspended.
#[derive(Clone, Copy, Debug, Eq, PartialEq)]
pub struct ViewInputReleaseReport {
    /// The view.
    pub view: ViewHandle,
    /// What held its input before.
    pub released: ViewInputState,
    /// The registry's revision afterwards.
    pub revision: u64,
}

/// What a shutdown closed, in its order.
#[derive(Clone, Debug, Eq, PartialEq)]
pub struct CompositionShutdownReport {
    /// The closed surfaces.
    pub closed_surfaces: Vec<SurfaceCloseReport>,
    /// The closed views.
    pub closed_views: Vec<ViewHandle>,
    /// The closed windows.
    pub closed_windows: Vec<WindowHandle>,
    /// The registry's revision afterwards.
    pub final_revision: u64,
}
