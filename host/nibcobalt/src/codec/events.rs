//! Call 23, route: the header and the payload of an event.

use super::form::Form;
use crate::{PlatformInputEvent, PlatformInputHeader, PlatformInputPayload};

pub fn route(event: &PlatformInputEvent) -> Form {
    payload(header(Form::of(23), &event.header), &event.payload)
}

fn header(form: Form, header: &PlatformInputHeader) -> Form {
    let keys = header.modifiers;
    form.number(header.sequence)
        .number(header.timestamp_micros)
        .number(header.metrics_revision)
        .handle(header.window)
        .handle(header.view)
        .number(header.device.value)
        .number(header.device.generation)
        .number(header.device_kind as u64)
        .number(keys.shift)
        .number(keys.control)
        .number(keys.alt)
        .number(keys.meta)
        .number(keys.caps_lock)
        .number(keys.num_lock)
}

/// The length of a text. A selection ends at most at 4,294,967,295, so of a longer text nothing is lost.
fn length(text: &str) -> u32 {
    u32::try_from(text.len()).unwrap_or(u32::MAX)
}

fn payload(form: Form, payload: &PlatformInputPayload) -> Form {
    use PlatformInputPayload as Payload;
    let of = |kind: u64| form.number(kind);
    match payload {
        Payload::Pointer {
            contact,
            phase,
            x_milli,
            y_milli,
            delta_x_milli,
            delta_y_milli,
            pressure_q15,
            tilt_x_degrees,
            tilt_y_degrees,
            buttons,
            changed_button,
        } => of(0)
            .number(*contact)
            .number(*phase as u64)
            .point(*x_milli, *y_milli)
            .point(*delta_x_milli, *delta_y_milli)
            .number(*pressure_q15)
            .short(*tilt_x_degrees)
            .short(*tilt_y_degrees)
            .number(*buttons)
            .number(changed_button.is_some())
            .number(changed_button.unwrap_or(0)),
        Payload::Wheel { contact, x_milli, y_milli, delta_x_milli, delta_y_milli, unit } => of(1)
            .number(*contact)
            .point(*x_milli, *y_milli)
            .point(*delta_x_milli, *delta_y_milli)
            .number(*unit as u64),
        Payload::Key { phase, physical_key, logical_key: _, repeat } => {
            of(2).number(*phase as u64).number(*physical_key).number(*repeat)
        }
        Payload::Shortcut { class_mask, system } => of(3).number(*class_mask).number(*system),
        Payload::Text { text } => of(4).number(length(text)),
        Payload::Composition { phase, text, selection_start, selection_end } => of(5)
            .number(*phase as u64)
            .number(length(text))
            .number(*selection_start)
            .number(*selection_end),
        Payload::GamepadSnapshot { connected, mapping, axes_q15: _, buttons: _ } => {
            of(6).number(*connected).number(*mapping as u64)
        }
        Payload::FocusChanged { focused } => of(7).number(*focused),
        Payload::VisibilityChanged { visible } => of(8).number(*visible),
        Payload::DeviceDisconnected => of(9),
    }
}
