//! The groups of numbers that column 8, the dumps and the digests are made of.

use crate::composition::{
    ArbitrationEvent, CompositionPointerId, CompositionTrace, InputDelivery, SurfaceCloseReport,
    SurfaceDescriptor, SurfaceRect, ViewInputState, ViewMetrics,
};
use crate::GenerationalHandle;

/// Where numbers go: a column, a list or a digest.
pub trait Numbers {
    fn number(&mut self, number: u64);
    fn signed(&mut self, number: i64);
}

/// Column 8: numbers with commas between, `-` before a negative one.
#[derive(Default)]
pub struct Column(pub String);

impl Column {
    fn text(&mut self, text: &str) {
        if !self.0.is_empty() {
            self.0.push(',');
        }
        self.0.push_str(text);
    }
}

impl Numbers for Column {
    fn number(&mut self, number: u64) {
        self.text(&number.to_string());
    }

    fn signed(&mut self, number: i64) {
        self.text(&number.to_string());
    }
}

/// A dump adds 2^31 to a signed number.
fn raised(number: i64) -> u64 {
    (number + (1 << 31)) as u64
}

/// A dump written out, for `state` and `router_state`.
#[derive(Default)]
pub struct DumpColumn(pub Column);

impl Numbers for DumpColumn {
    fn number(&mut self, number: u64) {
        self.0.number(number);
    }

    fn signed(&mut self, number: i64) {
        self.0.number(raised(number));
    }
}

/// The digest of a dump, taken number by number.
pub struct Digest {
    a: u64,
    b: u64,
}

impl Digest {
    pub fn new() -> Self {
        Self { a: 7, b: 11 }
    }

    pub fn value(&self) -> u64 {
        (self.a << 32) + self.b
    }

    fn part(&mut self, part: u64) {
        self.a = (self.a * 1_000_003 + part + 1) % 4_294_967_291;
        self.b = (self.b * 998_244_353 + part + 1) % 4_294_967_279;
    }
}

impl Default for Digest {
    fn default() -> Self {
        Self::new()
    }
}

impl Numbers for Digest {
    fn number(&mut self, number: u64) {
        self.part(number & 0xFFFF_FFFF);
        self.part(number >> 32);
    }

    fn signed(&mut self, number: i64) {
        self.number(raised(number));
    }
}

pub fn count<N: Numbers>(out: &mut N, count: usize) {
    out.number(count as u64);
}

pub fn flag<N: Numbers>(out: &mut N, flag: bool) {
    out.number(u64::from(flag));
}

pub fn handle<N: Numbers>(out: &mut N, handle: GenerationalHandle) {
    out.number(u64::from(handle.index));
    out.number(u64::from(handle.generation));
}

/// O: an optional handle.
pub fn optional<N: Numbers>(out: &mut N, value: Option<GenerationalHandle>) {
    flag(out, value.is_some());
    handle(out, value.unwrap_or(GenerationalHandle { index: 0, generation: 0 }));
}

/// K: a pointer.
pub fn pointer<N: Numbers>(out: &mut N, pointer: CompositionPointerId) {
    out.number(pointer.device);
    out.number(u64::from(pointer.device_generation));
    out.number(u64::from(pointer.contact));
}

/// R: an optional rectangle; none is five plain zeros.
pub fn rect<N: Numbers>(out: &mut N, rect: Option<SurfaceRect>) {
    match rect {
        Some(rect) => {
            out.number(1);
            out.signed(i64::from(rect.x_milli));
            out.signed(i64::from(rect.y_milli));
            out.number(u64::from(rect.width_milli));
            out.number(u64::from(rect.height_milli));
        }
        None => (0..5).for_each(|_| out.number(0)),
    }
}

/// M: a view's metrics.
pub fn metrics<N: Numbers>(out: &mut N, metrics: &ViewMetrics) {
    out.number(metrics.revision);
    out.signed(i64::from(metrics.origin_x_milli));
    out.signed(i64::from(metrics.origin_y_milli));
    for side in [
        metrics.width_milli,
        metrics.height_milli,
        metrics.framebuffer_width,
        metrics.framebuffer_height,
        metrics.scale_q16,
        metrics.safe_area.top_milli,
        metrics.safe_area.right_milli,
        metrics.safe_area.bottom_milli,
        metrics.safe_area.left_milli,
    ] {
        out.number(u64::from(side));
    }
    out.number(metrics.visibility as u64);
}

/// I: a view's focus, single capture field and IME.
pub fn input_state<N: Numbers>(out: &mut N, state: &ViewInputState) {
    optional(out, state.focused);
    optional(out, state.pointer_capture);
    optional(out, state.ime);
}

/// D: a panel's descriptor.
pub fn descriptor<N: Numbers>(out: &mut N, descriptor: &SurfaceDescriptor) {
    handle(out, descriptor.view);
    out.number(descriptor.kind as u64);
    out.signed(i64::from(descriptor.z_order));
    out.number(descriptor.input as u64);
    flag(out, descriptor.accepts_text);
    let geometry = descriptor.geometry;
    rect(out, geometry.bounds);
    rect(out, geometry.clip);
    for entry in [
        geometry.transform.m11_q16,
        geometry.transform.m12_q16,
        geometry.transform.m21_q16,
        geometry.transform.m22_q16,
        geometry.transform.translate_x_milli,
        geometry.transform.translate_y_milli,
    ] {
        out.signed(i64::from(entry));
    }
    out.number(u64::from(geometry.opacity_q16));
    flag(out, geometry.hit_test_enabled);
}

/// C: what a panel's close released, and the restored focus.
pub fn close_report<N: Numbers>(out: &mut N, report: &SurfaceCloseReport) {
    count(out, report.releases.len());
    for release in &report.releases {
        out.number(*release as u64);
    }
    optional(out, report.restored_focus);
}

/// An event as `arbitrate` writes it: what the kind has not is 0.
pub fn event<N: Numbers>(out: &mut N, event: &ArbitrationEvent) {
    use ArbitrationEvent::*;
    let nobody = CompositionPointerId { device: 0, device_generation: 0, contact: 0 };
    let (kind, key, target, mask, hits): (u64, _, _, u64, &[GenerationalHandle]) = match event {
        Pointer { hit } => (0, nobody, *hit, 0, &[]),
        PointerStack { hits } => (1, nobody, None, 0, hits),
        PointerFor { pointer, hit } => (2, *pointer, *hit, 0, &[]),
        PointerStackFor { pointer, hits } => (3, *pointer, None, 0, hits),
        Keyboard => (4, nobody, None, 0, &[]),
        KeyboardFor { target } => (5, nobody, *target, 0, &[]),
        Gamepad => (6, nobody, None, 0, &[]),
        GamepadFor { target } => (7, nobody, *target, 0, &[]),
        Text => (8, nobody, None, 0, &[]),
        Shortcut => (9, nobody, None, 0, &[]),
        SystemShortcut { class_mask } => (10, nobody, None, *class_mask, &[]),
    };
    out.number(kind);
    pointer(out, key);
    optional(out, target);
    out.number(mask);
    count(out, hits.len());
    hits.iter().for_each(|hit| handle(out, *hit));
}

fn deliveries<N: Numbers>(out: &mut N, deliveries: &[InputDelivery]) {
    count(out, deliveries.len());
    for delivery in deliveries {
        handle(out, delivery.surface);
        flag(out, delivery.observed);
    }
}

/// T: one trace.
pub fn trace<N: Numbers>(out: &mut N, trace: &CompositionTrace) {
    out.number(trace.revision);
    handle(out, trace.view);
    event(out, &trace.event);
    deliveries(out, &trace.deliveries);
    optional(out, trace.consumed_by);
}
