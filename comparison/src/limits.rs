//! Everything the driver decides itself because the Rust has no such limit: RULES.md's port
//! limits (41) at their places in its orders, and the added start. Nothing else answers 41.
//!
//! A check here says nothing (`Ok`) when the Rust itself will refuse the call before the limit counts.

use crate::answer::{composition_number, router_number};
use crate::composition::access;
use crate::platform_input::access as router_access;
use crate::platform_input::{PlatformInputEvent, PlatformInputRouter};
use crate::*;

/// RULES.md, Refusals: "41, a port limit is passed".
pub const PORT_LIMIT: u32 = 41;
/// RULES.md, Start: the number of a start with first generation 0.
const INVALID_CONFIG: u32 = 1;

/// RULES.md, Port limits: windows 8, views 16, panels 64, 16 panels a view, 32 traces.
pub const START_LIMITS: [u64; 5] = [8, 16, 64, 16, 32];
/// RULES.md, Port limits: 32 captures a view.
pub const CAPTURES_A_VIEW: usize = 32;
/// RULES.md, Port limits: 32 known devices.
pub const KNOWN_DEVICES: usize = 32;
/// RULES.md, Port limits: 256 shortcut registrations in all after the call.
pub const REGISTRATIONS: usize = 256;
/// RULES.md, Arbitrate: "41 (over 16 hits handed in)".
pub const HITS: usize = 16;
/// RULES.md, Hit test: "41 (buffer shorter than 32 numbers)".
pub const SHORTEST_BUFFER: u64 = 32;
/// RULES.md, Start: "over 128 bindings, 41".
pub const BINDINGS: u64 = 128;

/// What the Rust is handed for a configured limit. Windows, views and panels over 4,294,967,295 are
/// 1: 41 is added where the Rust accepts and the port cannot; where the Rust itself refuses, its
/// number stands.
fn handed_to_rust(limit: u64) -> usize {
    usize::try_from(limit).unwrap_or(usize::MAX)
}

/// RULES.md, Start: "2 (invalid session or epoch 0), 1 (a limit is 0), 41", and the added start:
/// it takes the first revision and first slot generation, and generation 0 is 1.
/// Answers the registry and the first slot generation.
pub fn start(
    session: SessionHandle,
    epoch: u64,
    limits: [u64; 5],
    first: Option<(u64, u32)>,
) -> Result<(CompositionRegistry, u32), u32> {
    let [windows, views, surfaces, surfaces_per_view, traces] = limits.map(handed_to_rust);
    let (revision, generation) = first.unwrap_or((0, 1));
    let limits_of_rust = CompositionLimits {
        max_windows: windows,
        max_views: views,
        max_surfaces: surfaces,
        max_surfaces_per_view: surfaces_per_view,
        max_trace_entries: traces,
    };
    let mut registry =
        CompositionRegistry::new(session, epoch, limits_of_rust).map_err(composition_number)?;
    if generation == 0 {
        return Err(INVALID_CONFIG);
    }
    if limits.iter().zip(START_LIMITS).any(|(limit, port)| *limit > port) {
        return Err(PORT_LIMIT);
    }
    access::set_revision(&mut registry, revision);
    Ok((registry, generation))
}

/// RULES.md, Start: over 128 bindings 41. A limit of 0 is 40 at the start, as in the Rust.
pub fn start_router(limit: u64) -> Result<PlatformInputRouter, u32> {
    let router = PlatformInputRouter::new(usize::try_from(limit).unwrap_or(usize::MAX))
        .map_err(router_number)?;
    if limit > BINDINGS {
        return Err(PORT_LIMIT);
    }
    Ok(router)
}

/// The added start's first slot generation: the Rust starts a new slot at 1, so after a creating
/// call (also one refused 21, which has made its slot) the new slot and all copies of its handle get it.
pub fn create(
    registry: &mut CompositionRegistry,
    first_generation: u32,
    call: impl FnOnce(&mut CompositionRegistry) -> Result<GenerationalHandle, CompositionError>,
) -> Result<GenerationalHandle, u32> {
    let before = access::used_slots(registry);
    let result = call(registry);
    let slot_is_new = access::used_slots(registry) != before;
    access::set_new_slots(registry, before, first_generation);
    let mut handle = result.map_err(composition_number)?;
    if slot_is_new {
        handle.generation = first_generation;
    }
    Ok(handle)
}

fn takes_input(policy: SurfaceInputPolicy) -> bool {
    matches!(policy, SurfaceInputPolicy::Interactive | SurfaceInputPolicy::Exclusive)
}

/// RULES.md, Shortcuts: 20, 11/12, 3, 18, 41, 21.
pub fn registrations(
    registry: &CompositionRegistry,
    surface: SurfaceHandle,
    list: &[SurfaceShortcutRegistration],
    revision: u64,
) -> Result<(), u32> {
    let Ok(descriptor) = registry.surface_descriptor(surface) else {
        return Ok(());
    };
    let refused_before = revision != registry.revision()
        || list.len() > 64
        || (!list.is_empty() && !takes_input(descriptor.input))
        || list.iter().any(|registration| registration.class_mask == 0);
    if refused_before {
        return Ok(());
    }
    let after = access::registrations_besides(registry, surface) + list.len();
    at_most(after, REGISTRATIONS)
}

/// RULES.md, Focus, captures, compositions: capture 20, 18 for a bad pointer, 11/12, 18, 8/9, 41, 21.
/// The limit counts where the Rust would put a new pointer into a full map.
pub fn capture(
    registry: &CompositionRegistry,
    pointer: CompositionPointerId,
    surface: SurfaceHandle,
    revision: u64,
) -> Result<(), u32> {
    if revision != registry.revision() || !pointer.is_valid() {
        return Ok(());
    }
    let Ok(descriptor) = registry.surface_descriptor(surface) else {
        return Ok(());
    };
    if !takes_input(descriptor.input) {
        return Ok(());
    }
    let Ok(captures) = registry.view_pointer_captures(descriptor.view) else {
        return Ok(());
    };
    let known = captures.iter().any(|(candidate, _)| *candidate == pointer);
    at_most(captures.len() + usize::from(!known), CAPTURES_A_VIEW)
}

/// RULES.md, Arbitrate: 8/9, 41 (over 16 hits handed in), 8/9, 21.
pub fn hits(
    registry: &CompositionRegistry,
    view: ViewHandle,
    event: &ArbitrationEvent,
) -> Result<(), u32> {
    match event {
        ArbitrationEvent::PointerStack { hits }
        | ArbitrationEvent::PointerStackFor { hits, .. }
            if registry.view_window(view).is_ok() =>
        {
            at_most(hits.len(), HITS)
        }
        _ => Ok(()),
    }
}

/// RULES.md, Hit test: 8/9, 41 (buffer shorter than 32 numbers).
pub fn buffer(registry: &CompositionRegistry, view: ViewHandle, length: u64) -> Result<(), u32> {
    if registry.view_window(view).is_ok() && length < SHORTEST_BUFFER {
        return Err(PORT_LIMIT);
    }
    Ok(())
}

/// RULES.md, Route: 31, 8/9, 39, 20, 34 to 38, 40, 32, 33, 41 (unseen device, table full), the work.
pub fn devices(
    router: &PlatformInputRouter,
    registry: &CompositionRegistry,
    event: &PlatformInputEvent,
) -> Result<(), u32> {
    let header = &event.header;
    if router_access::last_sequence(router, header.device).is_some() {
        return Ok(());
    }
    let refused_before = router_access::checks_before_order(router, registry, event).is_err()
        || header.sequence == 0
        || header.timestamp_micros < router_access::last_time(router);
    if refused_before {
        return Ok(());
    }
    at_most(router_access::known_devices(router) + 1, KNOWN_DEVICES)
}

fn at_most(count: usize, limit: usize) -> Result<(), u32> {
    if count > limit {
        return Err(PORT_LIMIT);
    }
    Ok(())
}
