//! Access to the router's private fields: the dump, the order of its checks and the generator's read-outs.

use super::{InputDeviceId, PlatformInputError, PlatformInputEvent, PlatformInputRouter};
use crate::dump::{self, Numbers};
use crate::{CompositionPointerId, CompositionRegistry, GenerationalHandle};

/// The Rust's own checks that come before sequence and time.
pub fn checks_before_order(
    router: &PlatformInputRouter,
    registry: &CompositionRegistry,
    event: &PlatformInputEvent,
) -> Result<(), PlatformInputError> {
    router.validate_event(registry, event)?;
    router.ensure_capacity_for_event(event)
}

pub fn limit(router: &PlatformInputRouter) -> usize {
    router.max_active_bindings
}

pub fn last_time(router: &PlatformInputRouter) -> u64 {
    router.last_timestamp_micros
}

pub fn known_devices(router: &PlatformInputRouter) -> usize {
    router.device_sequences.len()
}

pub fn last_sequence(router: &PlatformInputRouter, device: InputDeviceId) -> Option<u64> {
    router.device_sequences.get(&device).copied()
}

pub fn pointers(router: &PlatformInputRouter) -> Vec<CompositionPointerId> {
    router.active_pointers.keys().copied().collect()
}

/// The open presses of pointers, with their panels.
pub fn pointer_presses(
    router: &PlatformInputRouter,
) -> Vec<(CompositionPointerId, GenerationalHandle)> {
    router.active_pointers.iter().map(|(pointer, panel)| (*pointer, *panel)).collect()
}

pub fn keys(router: &PlatformInputRouter) -> Vec<(InputDeviceId, u32)> {
    router.active_keys.keys().copied().collect()
}

pub fn gamepads(router: &PlatformInputRouter) -> Vec<InputDeviceId> {
    router.active_gamepads.keys().copied().collect()
}

fn device<N: Numbers>(out: &mut N, device: InputDeviceId) {
    out.number(device.value);
    out.number(u64::from(device.generation));
}

/// The whole router, as the format's section Digests lists it.
pub fn dump<N: Numbers>(router: &PlatformInputRouter, out: &mut N) {
    dump::count(out, router.max_active_bindings);
    out.number(router.last_timestamp_micros);
    dump::count(out, router.device_sequences.len());
    for (id, sequence) in &router.device_sequences {
        device(out, *id);
        out.number(*sequence);
    }
    dump::count(out, router.active_pointers.len());
    for (pointer, surface) in &router.active_pointers {
        dump::pointer(out, *pointer);
        dump::handle(out, *surface);
    }
    dump::count(out, router.active_keys.len());
    for ((id, key), surface) in &router.active_keys {
        device(out, *id);
        out.number(u64::from(*key));
        dump::handle(out, *surface);
    }
    dump::count(out, router.active_gamepads.len());
    for (id, surface) in &router.active_gamepads {
        device(out, *id);
        dump::handle(out, *surface);
    }
}
