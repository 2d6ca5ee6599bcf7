//! Access to the registry's private fields: the dump, the added start and the generator's read-outs.

use super::{live_handles, CompositionRegistry, CompositionTrace, Slot, SurfaceRecord, ViewRecord};
use super::{SurfaceShortcutRegistration, SurfaceTransform};
use crate::dump::{self, Numbers};
use crate::GenerationalHandle;

/// The inverse of a panel's transform, which is private in the Rust.
pub fn inverse_point(transform: SurfaceTransform, x: i32, y: i32) -> Option<(i32, i32)> {
    transform.inverse_point(x, y)
}

pub fn set_revision(registry: &mut CompositionRegistry, revision: u64) {
    registry.revision = revision;
}

/// The number of used slots of windows, views and panels.
pub fn used_slots(registry: &CompositionRegistry) -> [usize; 3] {
    [registry.windows.len(), registry.views.len(), registry.surfaces.len()]
}

/// Gives the slots that are new since `before` another generation, and their handles in the layers too.
pub fn set_new_slots(registry: &mut CompositionRegistry, before: [usize; 3], generation: u32) {
    for slot in registry.windows.iter_mut().skip(before[0]) {
        slot.generation = generation;
    }
    for slot in registry.views.iter_mut().skip(before[1]) {
        slot.generation = generation;
    }
    for slot in registry.surfaces.iter_mut().skip(before[2]) {
        slot.generation = generation;
    }
    for view in registry.views.iter_mut().filter_map(|slot| slot.value.as_mut()) {
        for layer in &mut view.surfaces {
            if layer.index as usize >= before[2] {
                layer.generation = generation;
            }
        }
    }
}

/// The registrations of all live panels but the one named.
pub fn registrations_besides(registry: &CompositionRegistry, surface: GenerationalHandle) -> usize {
    registry
        .surfaces
        .iter()
        .enumerate()
        .filter(|(index, _)| *index != surface.index as usize)
        .filter_map(|(_, slot)| slot.value.as_ref())
        .map(|record| record.system_shortcuts.len())
        .sum()
}

pub fn limits(registry: &CompositionRegistry) -> super::CompositionLimits {
    registry.limits
}

pub fn windows(registry: &CompositionRegistry) -> Vec<GenerationalHandle> {
    live_handles(&registry.windows)
}

pub fn views(registry: &CompositionRegistry) -> Vec<GenerationalHandle> {
    live_handles(&registry.views)
}

pub fn surfaces(registry: &CompositionRegistry) -> Vec<GenerationalHandle> {
    live_handles(&registry.surfaces)
}

pub fn registrations(
    registry: &CompositionRegistry,
    surface: GenerationalHandle,
) -> Vec<SurfaceShortcutRegistration> {
    registry.surface(surface).map(|record| record.system_shortcuts.clone()).unwrap_or_default()
}

/// The whole registry, as the format's section Digests lists it.
pub fn dump<N: Numbers>(registry: &CompositionRegistry, first_generation: u32, out: &mut N) {
    dump::handle(out, registry.session);
    out.number(registry.session_epoch);
    dump::count(out, registry.limits.max_windows);
    dump::count(out, registry.limits.max_views);
    dump::count(out, registry.limits.max_surfaces);
    dump::count(out, registry.limits.max_surfaces_per_view);
    dump::count(out, registry.limits.max_trace_entries);
    out.number(u64::from(first_generation));
    out.number(registry.revision);
    let windows = (&registry.windows, &registry.free_windows, registry.live_windows);
    arena(out, windows, |_, _| {});
    let views = (&registry.views, &registry.free_views, registry.live_views);
    arena(out, views, view);
    let surfaces = (&registry.surfaces, &registry.free_surfaces, registry.live_surfaces);
    arena(out, surfaces, surface);
    dump::count(out, registry.traces.len());
    for trace in &registry.traces {
        let trace: &CompositionTrace = trace;
        dump::trace(out, trace);
    }
}

fn arena<N: Numbers, T>(
    out: &mut N,
    (slots, free, live): (&Vec<Slot<T>>, &Vec<u32>, usize),
    value: impl Fn(&mut N, &T),
) {
    dump::count(out, slots.len());
    for slot in slots {
        out.number(u64::from(slot.generation));
        dump::flag(out, slot.value.is_some());
        if let Some(record) = &slot.value {
            value(out, record);
        }
    }
    dump::count(out, free.len());
    for index in free {
        out.number(u64::from(*index));
    }
    dump::count(out, live);
}

fn view<N: Numbers>(out: &mut N, view: &ViewRecord) {
    dump::handle(out, view.window);
    dump::metrics(out, &view.metrics);
    dump::count(out, view.surfaces.len());
    view.surfaces.iter().for_each(|layer| dump::handle(out, *layer));
    dump::optional(out, view.focus);
    dump::optional(out, view.pointer_capture);
    dump::count(out, view.pointer_captures.len());
    for (pointer, surface) in &view.pointer_captures {
        dump::pointer(out, *pointer);
        dump::handle(out, *surface);
    }
    dump::optional(out, view.ime);
}

fn surface<N: Numbers>(out: &mut N, surface: &SurfaceRecord) {
    dump::descriptor(out, &surface.descriptor);
    dump::count(out, surface.system_shortcuts.len());
    for registration in &surface.system_shortcuts {
        out.number(registration.class_mask);
        out.number(registration.scope as u64);
        out.signed(i64::from(registration.priority));
    }
}
