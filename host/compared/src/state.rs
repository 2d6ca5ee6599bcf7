//! Both states as one list of numbers, in the order of the comparison's dumps.

use comparison::composition::access;
use comparison::dump::Numbers;
use comparison::platform_input::access as router_access;

use crate::memory::*;

/// The numbers of a state. A signed number has 2^31 added.
#[derive(Clone, Debug, Default, Eq, PartialEq)]
pub struct State(pub Vec<u64>);

impl Numbers for State {
    fn number(&mut self, number: u64) {
        self.0.push(number);
    }

    fn signed(&mut self, number: i64) {
        self.0.push((number + (1 << 31)) as u64);
    }
}

/// The state of the unchanged Rust.
pub fn of_rust(
    registry: &comparison::CompositionRegistry,
    first_generation: u32,
    router: &comparison::platform_input::PlatformInputRouter,
    out: &mut State,
) {
    out.0.clear();
    access::dump(registry, first_generation, out);
    router_access::dump(router, out);
}

/// The state in the library's memory: the registry of one counter, the router of another.
pub fn of_memory(registry: &Memory, router: &Memory, out: &mut State) {
    out.0.clear();
    out.registry(&registry.registry);
    out.router(&router.router);
}

impl State {
    fn count(&mut self, count: usize) {
        self.number(count as u64);
    }

    fn handle(&mut self, handle: &Handle) {
        self.number(handle.index.into());
        self.number(handle.generation.into());
    }

    /// What stands behind a flag of 0 is not read by the library, so it is no part of the state.
    fn optional(&mut self, value: &OptionalHandle) {
        self.number(value.is_some.into());
        match value.is_some {
            0 => self.0.extend([0, 0]),
            _ => self.handle(&value.handle),
        }
    }

    fn pointer(&mut self, pointer: &Pointer) {
        self.number(pointer.device);
        self.number(pointer.device_generation.into());
        self.number(pointer.contact.into());
    }

    fn rect(&mut self, value: &OptionalRect) {
        self.number(value.is_some.into());
        if value.is_some == 0 {
            self.0.extend([0; 4]);
            return;
        }
        self.signed(value.rect.x_milli.into());
        self.signed(value.rect.y_milli.into());
        self.number(value.rect.width_milli.into());
        self.number(value.rect.height_milli.into());
    }

    fn registry(&mut self, registry: &Registry) {
        self.handle(&registry.session);
        self.number(registry.session_epoch);
        self.0.extend(registry.limits);
        self.number(registry.first_generation.into());
        self.number(registry.revision);
        self.arena(&registry.windows, |_, _| {});
        self.arena(&registry.views.arena, |out, slot| out.view(&registry.views.records[slot]));
        self.arena(&registry.surfaces.arena, |out, slot| {
            out.surface(&registry.surfaces.records[slot]);
            out.shortcuts(&registry.shortcuts, slot);
        });
        let traces = &registry.traces;
        self.count(traces.len);
        traces.items[..traces.len].iter().for_each(|trace| self.trace(trace));
    }

    fn arena(&mut self, arena: &Arena, record: impl Fn(&mut Self, usize)) {
        self.count(arena.used);
        for (place, slot) in arena.slots[..arena.used].iter().enumerate() {
            self.number(slot.generation.into());
            self.number(slot.filled.into());
            if slot.filled != 0 {
                record(self, place);
            }
        }
        self.count(arena.freed);
        self.0.extend(arena.free[..arena.freed].iter().map(|index| u64::from(*index)));
        self.count(arena.live);
    }

    fn metrics(&mut self, metrics: &Metrics) {
        self.number(metrics.revision);
        self.signed(metrics.origin_x_milli.into());
        self.signed(metrics.origin_y_milli.into());
        self.number(metrics.width_milli.into());
        self.number(metrics.height_milli.into());
        self.number(metrics.framebuffer_width.into());
        self.number(metrics.framebuffer_height.into());
        self.number(metrics.scale_q16.into());
        self.0.extend(metrics.safe_area.iter().map(|side| u64::from(*side)));
        self.number(metrics.visibility.into());
    }

    fn handles(&mut self, list: &Handles) {
        self.count(list.len);
        list.items[..list.len].iter().for_each(|handle| self.handle(handle));
    }

    fn view(&mut self, view: &View) {
        self.handle(&view.window);
        self.metrics(&view.metrics);
        self.handles(&view.surfaces);
        self.optional(&view.focus);
        self.optional(&view.pointer_capture);
        let captures = &view.pointer_captures;
        self.count(captures.len);
        for capture in &captures.entries[..captures.len] {
            self.pointer(&capture.pointer);
            self.handle(&capture.surface);
        }
        self.optional(&view.ime);
    }

    fn surface(&mut self, surface: &Surface) {
        self.handle(&surface.view);
        self.number(surface.kind.into());
        self.signed(surface.z_order.into());
        self.number(surface.input.into());
        self.number(surface.accepts_text.into());
        let geometry = &surface.geometry;
        self.rect(&geometry.bounds);
        self.rect(&geometry.clip);
        geometry.transform.iter().for_each(|entry| self.signed(i64::from(*entry)));
        self.number(geometry.opacity_q16.into());
        self.number(geometry.hit_test_enabled.into());
    }

    /// The registrations of a panel stand in one table with all others, each with its panel's slot.
    fn shortcuts(&mut self, shortcuts: &Shortcuts, slot: usize) {
        let all = &shortcuts.entries[..shortcuts.len];
        let own = || all.iter().filter(|entry| entry.slot as usize == slot);
        self.count(own().count());
        for entry in own() {
            self.number(entry.class_mask);
            self.number(entry.scope.into());
            self.signed(entry.priority.into());
        }
    }

    fn trace(&mut self, trace: &Trace) {
        self.number(trace.revision);
        self.handle(&trace.view);
        self.number(trace.event.kind.into());
        self.pointer(&trace.event.pointer);
        self.optional(&trace.event.target);
        self.number(trace.event.class_mask);
        self.handles(&trace.hits);
        let deliveries = &trace.deliveries;
        self.count(deliveries.len);
        for delivery in &deliveries.items[..deliveries.len] {
            self.handle(&delivery.surface);
            self.number(delivery.observed.into());
        }
        self.optional(&trace.consumed_by);
    }

    fn router(&mut self, router: &Router) {
        self.number(router.max_active_bindings);
        self.number(router.last_timestamp_micros);
        let sequences = &router.device_sequences;
        self.count(sequences.len);
        for entry in &sequences.entries[..sequences.len] {
            self.number(entry.device.value);
            self.number(entry.device.generation.into());
            self.number(entry.sequence);
        }
        let all = &router.bindings.entries[..router.bindings.len];
        for kind in 0..3 {
            let of_kind = || all.iter().filter(|press| press.kind == kind);
            self.count(of_kind().count());
            for press in of_kind() {
                self.number(press.device);
                self.number(press.generation.into());
                // A gamepad has no contact and no key.
                if kind < 2 {
                    self.number(press.code.into());
                }
                self.handle(&press.surface);
            }
        }
    }
}
