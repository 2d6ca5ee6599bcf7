//! Every call but route, by its number: docs/HOSTING.md has the same table.

use super::form::Form;
use crate::{
    ArbitrationEvent, CompositionPointerId, SurfaceDescriptor, SurfaceGeometry, SurfaceHandle,
    SurfaceInputPolicy, SurfaceShortcutRegistration, ViewHandle, ViewMetricsUpdate, WindowHandle,
};

pub fn create_window() -> Form {
    Form::of(0)
}

pub fn close_window(window: WindowHandle) -> Form {
    Form::of(1).handle(window)
}

pub fn create_view(window: WindowHandle) -> Form {
    Form::of(2).handle(window)
}

pub fn update_view_metrics(view: ViewHandle, update: ViewMetricsUpdate, revision: u64) -> Form {
    Form::of(3)
        .handle(view)
        .point(update.origin_x_milli, update.origin_y_milli)
        .number(update.width_milli)
        .number(update.height_milli)
        .number(update.framebuffer_width)
        .number(update.framebuffer_height)
        .number(update.scale_q16)
        .number(update.safe_area.top_milli)
        .number(update.safe_area.right_milli)
        .number(update.safe_area.bottom_milli)
        .number(update.safe_area.left_milli)
        .number(update.visibility as u64)
        .number(revision)
}

pub fn close_view(view: ViewHandle) -> Form {
    Form::of(4).handle(view)
}

pub fn attach_surface(descriptor: SurfaceDescriptor) -> Form {
    Form::of(5)
        .handle(descriptor.view)
        .number(descriptor.kind as u64)
        .signed(descriptor.z_order)
        .number(descriptor.input as u64)
        .number(descriptor.accepts_text)
        .geometry(descriptor.geometry)
}

pub fn update_surface_geometry(
    surface: SurfaceHandle,
    geometry: SurfaceGeometry,
    revision: u64,
) -> Form {
    Form::of(6).handle(surface).geometry(geometry).number(revision)
}

pub fn update_surface_input_policy(
    surface: SurfaceHandle,
    input: SurfaceInputPolicy,
    revision: u64,
) -> Form {
    Form::of(7).handle(surface).number(input as u64).number(revision)
}

pub fn set_focus(view: ViewHandle, surface: Option<SurfaceHandle>, revision: u64) -> Form {
    Form::of(8).handle(view).optional(surface).number(revision)
}

pub fn capture_pointer(surface: SurfaceHandle, revision: u64) -> Form {
    Form::of(9).handle(surface).number(revision)
}

pub fn capture_pointer_for(
    pointer: CompositionPointerId,
    surface: SurfaceHandle,
    revision: u64,
) -> Form {
    Form::of(10).pointer(pointer).handle(surface).number(revision)
}

pub fn release_pointer(surface: SurfaceHandle, revision: u64) -> Form {
    Form::of(11).handle(surface).number(revision)
}

pub fn release_pointer_for(
    pointer: CompositionPointerId,
    surface: SurfaceHandle,
    revision: u64,
) -> Form {
    Form::of(12).pointer(pointer).handle(surface).number(revision)
}

pub fn begin_ime(surface: SurfaceHandle, revision: u64) -> Form {
    Form::of(13).handle(surface).number(revision)
}

pub fn end_ime(surface: SurfaceHandle, revision: u64) -> Form {
    Form::of(14).handle(surface).number(revision)
}

pub fn suspend_view_input(view: ViewHandle, revision: u64) -> Form {
    Form::of(15).handle(view).number(revision)
}

pub fn release_device_pointer_captures(device: u64, generation: u32) -> Form {
    Form::of(16).number(device).number(generation)
}

/// The registrations stand beside the call.
pub fn register_surface_system_shortcut_set(surface: SurfaceHandle, revision: u64) -> Form {
    Form::of(17).handle(surface).number(revision)
}

pub fn register_surface_system_shortcuts(
    surface: SurfaceHandle,
    registration: Option<SurfaceShortcutRegistration>,
    revision: u64,
) -> Form {
    Form::of(18).handle(surface).registration(registration).number(revision)
}

pub fn set_surface_system_shortcuts(surface: SurfaceHandle, mask: u64, revision: u64) -> Form {
    Form::of(19).handle(surface).number(mask).number(revision)
}

/// The hits of a stack stand beside the call.
pub fn arbitrate(view: ViewHandle, event: &ArbitrationEvent) -> Form {
    use ArbitrationEvent as Event;
    let of = |kind: u64| Form::of(20).handle(view).number(kind);
    match event {
        Event::Pointer { hit } => of(0).optional(*hit),
        Event::PointerStack { .. } => of(1),
        Event::PointerFor { pointer, hit } => of(2).pointer(*pointer).optional(*hit),
        Event::PointerStackFor { pointer, .. } => of(3).pointer(*pointer),
        Event::Keyboard => of(4),
        Event::KeyboardFor { target } => of(5).optional(*target),
        Event::Gamepad => of(6),
        Event::GamepadFor { target } => of(7).optional(*target),
        Event::Text => of(8),
        Event::Shortcut => of(9),
        Event::SystemShortcut { class_mask } => of(10).number(*class_mask),
    }
}

pub fn close_surface(surface: SurfaceHandle) -> Form {
    Form::of(21).handle(surface)
}

pub fn shutdown() -> Form {
    Form::of(22)
}

/// In the router.
pub fn release_surface(surface: SurfaceHandle) -> Form {
    Form::of(24).handle(surface)
}

/// In the router.
pub fn release_all() -> Form {
    Form::of(25)
}

pub fn view_window(view: ViewHandle) -> Form {
    Form::of(26).handle(view)
}

pub fn view_metrics(view: ViewHandle) -> Form {
    Form::of(27).handle(view)
}

pub fn view_input_state(view: ViewHandle) -> Form {
    Form::of(28).handle(view)
}

pub fn view_pointer_captures(view: ViewHandle) -> Form {
    Form::of(29).handle(view)
}

pub fn surface_descriptor(surface: SurfaceHandle) -> Form {
    Form::of(30).handle(surface)
}

pub fn view_layers(view: ViewHandle) -> Form {
    Form::of(31).handle(view)
}

pub fn traces() -> Form {
    Form::of(32)
}

pub fn counts() -> Form {
    Form::of(33)
}

/// In the router.
pub fn active_binding_count() -> Form {
    Form::of(34)
}

/// With room for as many hits as a view can have.
pub fn hit_test_stack(view: ViewHandle, x_milli: i32, y_milli: i32) -> Form {
    const ROOM: u64 = 32;
    Form::of(35).handle(view).point(x_milli, y_milli).number(ROOM)
}
