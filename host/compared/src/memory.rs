//! The memory of a counter, field by field: the structs of crates/counter_memory, with every flag and every enum a
//! byte.

use nibcobalt::ffi::Counter;

#[repr(C)]
pub struct Handle {
    pub index: u32,
    pub generation: u32,
}

#[repr(C)]
pub struct OptionalHandle {
    pub is_some: u8,
    pub handle: Handle,
}

#[repr(C)]
pub struct Rect {
    pub x_milli: i32,
    pub y_milli: i32,
    pub width_milli: u32,
    pub height_milli: u32,
}

#[repr(C)]
pub struct OptionalRect {
    pub is_some: u8,
    pub rect: Rect,
}

#[repr(C)]
pub struct Pointer {
    pub device: u64,
    pub device_generation: u32,
    pub contact: u32,
}

#[repr(C)]
pub struct Device {
    pub value: u64,
    pub generation: u32,
}

#[repr(C)]
pub struct Slot {
    pub generation: u32,
    pub filled: u8,
}

/// The slots of windows, views or panels.
#[repr(C)]
pub struct Arena {
    pub slots: [Slot; 64],
    pub used: usize,
    pub free: [u32; 64],
    pub freed: usize,
    pub live: usize,
}

#[repr(C)]
pub struct Metrics {
    pub revision: u64,
    pub origin_x_milli: i32,
    pub origin_y_milli: i32,
    pub width_milli: u32,
    pub height_milli: u32,
    pub framebuffer_width: u32,
    pub framebuffer_height: u32,
    pub scale_q16: u32,
    /// Top, right, bottom, left.
    pub safe_area: [u32; 4],
    pub visibility: u8,
}

#[repr(C)]
pub struct Handles {
    pub items: [Handle; 16],
    pub len: usize,
}

#[repr(C)]
pub struct Capture {
    pub pointer: Pointer,
    pub surface: Handle,
}

#[repr(C)]
pub struct Captures {
    pub entries: [Capture; 32],
    pub len: usize,
}

#[repr(C)]
pub struct View {
    pub window: Handle,
    pub metrics: Metrics,
    pub surfaces: Handles,
    pub focus: OptionalHandle,
    pub pointer_capture: OptionalHandle,
    pub pointer_captures: Captures,
    pub ime: OptionalHandle,
}

#[repr(C)]
pub struct Views {
    pub arena: Arena,
    pub records: [View; 16],
}

#[repr(C)]
pub struct Geometry {
    pub bounds: OptionalRect,
    pub clip: OptionalRect,
    /// The matrix row by row, then the translation.
    pub transform: [i32; 6],
    pub opacity_q16: u16,
    pub hit_test_enabled: u8,
}

#[repr(C)]
pub struct Surface {
    pub view: Handle,
    pub kind: u8,
    pub z_order: i32,
    pub input: u8,
    pub accepts_text: u8,
    pub geometry: Geometry,
}

#[repr(C)]
pub struct Surfaces {
    pub arena: Arena,
    pub records: [Surface; 64],
}

#[repr(C)]
pub struct Shortcut {
    pub class_mask: u64,
    pub slot: u32,
    pub priority: i16,
    pub scope: u8,
}

#[repr(C)]
pub struct Shortcuts {
    pub entries: [Shortcut; 256],
    pub len: usize,
}

#[repr(C)]
pub struct Event {
    pub pointer: Pointer,
    pub class_mask: u64,
    pub target: OptionalHandle,
    pub kind: u8,
}

#[repr(C)]
pub struct Delivery {
    pub surface: Handle,
    pub observed: u8,
}

#[repr(C)]
pub struct Deliveries {
    pub items: [Delivery; 16],
    pub len: usize,
}

#[repr(C)]
pub struct Trace {
    pub revision: u64,
    pub view: Handle,
    pub event: Event,
    pub hits: Handles,
    pub deliveries: Deliveries,
    pub consumed_by: OptionalHandle,
}

#[repr(C)]
pub struct Traces {
    pub items: [Trace; 32],
    pub len: usize,
}

#[repr(C)]
pub struct Registry {
    pub session: Handle,
    pub session_epoch: u64,
    /// Windows, views, panels, panels of a view, traces.
    pub limits: [u64; 5],
    pub first_generation: u32,
    pub revision: u64,
    pub windows: Arena,
    pub views: Views,
    pub surfaces: Surfaces,
    pub shortcuts: Shortcuts,
    pub traces: Traces,
}

#[repr(C)]
pub struct Sequence {
    pub device: Device,
    pub sequence: u64,
}

#[repr(C)]
pub struct Sequences {
    pub entries: [Sequence; 32],
    pub len: usize,
}

/// An open press: kind 0 a pointer, 1 a key, 2 a gamepad.
#[repr(C)]
pub struct Press {
    pub kind: u32,
    pub device: u64,
    pub generation: u32,
    pub code: u32,
    pub surface: Handle,
}

#[repr(C)]
pub struct Presses {
    pub entries: [Press; 128],
    pub len: usize,
}

#[repr(C)]
pub struct Router {
    pub max_active_bindings: u64,
    pub last_timestamp_micros: u64,
    pub device_sequences: Sequences,
    pub bindings: Presses,
}

#[repr(C)]
pub struct Memory {
    pub registry: Registry,
    pub router: Router,
}

const _: () = assert!(size_of::<Registry>() == 41_504);
const _: () = assert!(size_of::<Router>() == 4_896);
const _: () = assert!(size_of::<Memory>() == size_of::<Counter>());
const _: () = assert!(align_of::<Memory>() == align_of::<Counter>());

/// The memory of a counter with its fields.
pub fn fields(counter: &Counter) -> &Memory {
    // SAFETY: both are `repr(C)` of the same size and alignment, and every field is a plain number, which may hold any
    // bytes.
    unsafe { &*std::ptr::from_ref(counter).cast() }
}
