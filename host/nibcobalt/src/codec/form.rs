//! The numbers of one call, written field by field.

use crate::ffi::{Registration, CALL_NUMBERS};
use crate::{
    CompositionPointerId, GenerationalHandle, SurfaceGeometry, SurfaceRect,
    SurfaceShortcutRegistration, SurfaceTransform,
};

/// A call's number and fields; zeros behind them.
pub struct Form {
    pub numbers: [u64; CALL_NUMBERS],
    at: usize,
}

impl Form {
    /// The call of a number, without fields.
    pub fn of(call: u64) -> Self {
        Self { numbers: [0; CALL_NUMBERS], at: 0 }.number(call)
    }

    pub fn number(mut self, number: impl Into<u64>) -> Self {
        self.numbers[self.at] = number.into();
        self.at += 1;
        self
    }

    /// The 32 bits of a signed number.
    pub fn signed(self, number: i32) -> Self {
        self.number(number as u32)
    }

    /// The 16 bits of a signed number.
    pub fn short(self, number: i16) -> Self {
        self.number(number as u16)
    }

    pub fn handle(self, handle: GenerationalHandle) -> Self {
        self.number(handle.index).number(handle.generation)
    }

    pub fn optional(self, handle: Option<GenerationalHandle>) -> Self {
        let nobody = GenerationalHandle { index: 0, generation: 0 };
        self.number(handle.is_some()).handle(handle.unwrap_or(nobody))
    }

    pub fn pointer(self, pointer: CompositionPointerId) -> Self {
        self.number(pointer.device).number(pointer.device_generation).number(pointer.contact)
    }

    pub fn point(self, x_milli: i32, y_milli: i32) -> Self {
        self.signed(x_milli).signed(y_milli)
    }

    pub fn rect(self, rect: Option<SurfaceRect>) -> Self {
        let nothing = SurfaceRect { x_milli: 0, y_milli: 0, width_milli: 0, height_milli: 0 };
        let form = self.number(rect.is_some());
        let rect = rect.unwrap_or(nothing);
        form.point(rect.x_milli, rect.y_milli).number(rect.width_milli).number(rect.height_milli)
    }

    pub fn transform(self, transform: SurfaceTransform) -> Self {
        self.signed(transform.m11_q16)
            .signed(transform.m12_q16)
            .signed(transform.m21_q16)
            .signed(transform.m22_q16)
            .point(transform.translate_x_milli, transform.translate_y_milli)
    }

    pub fn geometry(self, geometry: SurfaceGeometry) -> Self {
        self.rect(geometry.bounds)
            .rect(geometry.clip)
            .transform(geometry.transform)
            .number(geometry.opacity_q16)
            .number(geometry.hit_test_enabled)
    }

    pub fn registration(self, registration: Option<SurfaceShortcutRegistration>) -> Self {
        let numbers = registration.map(registration_numbers).unwrap_or_default();
        self.number(registration.is_some())
            .number(numbers.class_mask)
            .number(numbers.scope)
            .number(numbers.priority)
    }
}

/// A registration as it stands in a call and beside one.
pub fn registration_numbers(registration: SurfaceShortcutRegistration) -> Registration {
    Registration {
        class_mask: registration.class_mask,
        scope: registration.scope as u64,
        priority: u64::from(registration.priority as u16),
    }
}
