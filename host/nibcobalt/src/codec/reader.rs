//! Values read from numbers of eight bytes, the low byte first. Signed numbers have 2^31 added.

use crate::{
    ArbitrationEvent, CompositionPointerId, CompositionTrace, GenerationalHandle, InputDelivery,
    InputDeviceId, SurfaceCloseReport, SurfaceDescriptor, SurfaceGeometry, SurfaceHandle,
    SurfaceInputPolicy, SurfaceKind, SurfaceLayer, SurfaceRect, SurfaceRelease, SurfaceTransform,
    SynthesizedInputRelease, ViewInputState, ViewInsets, ViewMetrics, ViewVisibility,
};

const KINDS: [SurfaceKind; 3] = [SurfaceKind::Game, SurfaceKind::Ui, SurfaceKind::Diagnostics];
const POLICIES: [SurfaceInputPolicy; 4] = [
    SurfaceInputPolicy::Observe,
    SurfaceInputPolicy::Passthrough,
    SurfaceInputPolicy::Interactive,
    SurfaceInputPolicy::Exclusive,
];
const VISIBILITIES: [ViewVisibility; 3] =
    [ViewVisibility::Visible, ViewVisibility::Hidden, ViewVisibility::Suspended];
const RELEASES: [SurfaceRelease; 3] =
    [SurfaceRelease::Focus, SurfaceRelease::PointerCapture, SurfaceRelease::ImeComposition];

/// The numbers of an answer that are not yet read.
pub struct Reader<'a> {
    bytes: &'a [u8],
}

impl<'a> Reader<'a> {
    pub fn of(bytes: &'a [u8]) -> Self {
        Self { bytes }
    }

    pub fn number(&mut self) -> u64 {
        let (first, rest) = self.bytes.split_first_chunk().expect("the answer has the number");
        self.bytes = rest;
        u64::from_le_bytes(*first)
    }

    /// Leaves numbers unread.
    pub fn pass(&mut self, count: usize) {
        self.bytes = &self.bytes[8 * count..];
    }

    /// A number of a smaller type.
    fn small<T: TryFrom<u64>>(&mut self) -> T {
        T::try_from(self.number()).ok().expect("the number lies in its field's range")
    }

    pub fn count(&mut self) -> usize {
        self.small()
    }

    fn flag(&mut self) -> bool {
        self.number() != 0
    }

    fn signed(&mut self) -> i32 {
        let raised = i64::from(self.small::<u32>());
        (raised - (1 << 31)) as i32
    }

    fn choice<T: Copy>(&mut self, all: &[T]) -> T {
        all[self.count()]
    }

    /// A count, and so many values.
    pub fn list<T>(&mut self, read: impl Fn(&mut Self) -> T) -> Vec<T> {
        let count = self.count();
        (0..count).map(|_| read(self)).collect()
    }

    pub fn handle(&mut self) -> GenerationalHandle {
        GenerationalHandle { index: self.small(), generation: self.small() }
    }

    pub fn optional(&mut self) -> Option<GenerationalHandle> {
        let is_some = self.flag();
        let handle = self.handle();
        is_some.then_some(handle)
    }

    fn pointer(&mut self) -> CompositionPointerId {
        CompositionPointerId {
            device: self.number(),
            device_generation: self.small(),
            contact: self.small(),
        }
    }

    fn device(&mut self) -> InputDeviceId {
        InputDeviceId { value: self.number(), generation: self.small() }
    }

    pub fn delivery(&mut self) -> InputDelivery {
        InputDelivery { surface: self.handle(), observed: self.flag() }
    }

    /// Six numbers whatever the kind: kind, device, contact or key (0 for a gamepad), panel.
    pub fn release(&mut self) -> SynthesizedInputRelease {
        let kind = self.number();
        let device = self.device();
        let code = self.small();
        let surface = self.handle();
        match kind {
            0 => SynthesizedInputRelease::PointerCancel {
                pointer: CompositionPointerId {
                    device: device.value,
                    device_generation: device.generation,
                    contact: code,
                },
                surface,
            },
            1 => SynthesizedInputRelease::KeyUp { device, physical_key: code, surface },
            _ => SynthesizedInputRelease::GamepadDisconnected { device, surface },
        }
    }

    pub fn capture(&mut self) -> (CompositionPointerId, SurfaceHandle) {
        (self.pointer(), self.handle())
    }

    pub fn metrics(&mut self) -> ViewMetrics {
        ViewMetrics {
            revision: self.number(),
            origin_x_milli: self.signed(),
            origin_y_milli: self.signed(),
            width_milli: self.small(),
            height_milli: self.small(),
            framebuffer_width: self.small(),
            framebuffer_height: self.small(),
            scale_q16: self.small(),
            safe_area: ViewInsets {
                top_milli: self.small(),
                right_milli: self.small(),
                bottom_milli: self.small(),
                left_milli: self.small(),
            },
            visibility: self.choice(&VISIBILITIES),
        }
    }

    pub fn input_state(&mut self) -> ViewInputState {
        ViewInputState {
            focused: self.optional(),
            pointer_capture: self.optional(),
            ime: self.optional(),
        }
    }

    /// None is five zeros, without 2^31.
    fn rect(&mut self) -> Option<SurfaceRect> {
        if !self.flag() {
            self.pass(4);
            return None;
        }
        Some(SurfaceRect {
            x_milli: self.signed(),
            y_milli: self.signed(),
            width_milli: self.small(),
            height_milli: self.small(),
        })
    }

    fn transform(&mut self) -> SurfaceTransform {
        SurfaceTransform {
            m11_q16: self.signed(),
            m12_q16: self.signed(),
            m21_q16: self.signed(),
            m22_q16: self.signed(),
            translate_x_milli: self.signed(),
            translate_y_milli: self.signed(),
        }
    }

    pub fn descriptor(&mut self) -> SurfaceDescriptor {
        SurfaceDescriptor {
            view: self.handle(),
            kind: self.choice(&KINDS),
            z_order: self.signed(),
            input: self.choice(&POLICIES),
            accepts_text: self.flag(),
            geometry: SurfaceGeometry {
                bounds: self.rect(),
                clip: self.rect(),
                transform: self.transform(),
                opacity_q16: self.small(),
                hit_test_enabled: self.flag(),
            },
        }
    }

    pub fn layer(&mut self) -> SurfaceLayer {
        SurfaceLayer { surface: self.handle(), descriptor: self.descriptor() }
    }

    /// What the close of a surface let go, which stands without the surface and the revision.
    pub fn closed(&mut self, surface: SurfaceHandle, revision: u64) -> SurfaceCloseReport {
        SurfaceCloseReport {
            surface,
            releases: self.list(|reader| reader.choice(&RELEASES)),
            restored_focus: self.optional(),
            revision,
        }
    }

    /// A closed surface of a shutdown, with its surface before and its revision behind.
    pub fn closed_of_shutdown(&mut self) -> SurfaceCloseReport {
        let surface = self.handle();
        let report = self.closed(surface, 0);
        SurfaceCloseReport { revision: self.number(), ..report }
    }

    /// Every kind has all fields; what it has not is 0.
    fn event(&mut self) -> ArbitrationEvent {
        let kind = self.number();
        let pointer = self.pointer();
        let target = self.optional();
        let class_mask = self.number();
        let hits = self.list(Self::handle);
        match kind {
            0 => ArbitrationEvent::Pointer { hit: target },
            1 => ArbitrationEvent::PointerStack { hits },
            2 => ArbitrationEvent::PointerFor { pointer, hit: target },
            3 => ArbitrationEvent::PointerStackFor { pointer, hits },
            4 => ArbitrationEvent::Keyboard,
            5 => ArbitrationEvent::KeyboardFor { target },
            6 => ArbitrationEvent::Gamepad,
            7 => ArbitrationEvent::GamepadFor { target },
            8 => ArbitrationEvent::Text,
            9 => ArbitrationEvent::Shortcut,
            _ => ArbitrationEvent::SystemShortcut { class_mask },
        }
    }

    pub fn trace(&mut self) -> CompositionTrace {
        CompositionTrace {
            revision: self.number(),
            view: self.handle(),
            event: self.event(),
            deliveries: self.list(Self::delivery),
            consumed_by: self.optional(),
        }
    }
}
