//! Fills a table to its limit or just below it, then reads it out.

use super::events::k;
use super::pick::takes_input;
use super::{h, Maker, Mode};
use crate::composition::access;
use crate::limits::{BINDINGS, CAPTURES_A_VIEW, HITS, KNOWN_DEVICES, REGISTRATIONS, START_LIMITS};
use crate::platform_input::InputDeviceId;
use crate::{CompositionPointerId, GenerationalHandle};

/// A panel without rectangles that every point hits.
const WHOLE: &str = "0 0 0 0 0 0 0 0 0 0 65536 0 0 65536 0 0 65535 1";

impl Maker {
    /// Fills the table of a script of the profile `limits`.
    pub fn fill(&mut self) {
        let short = self.rng.pick(&[0, 0, 1, 2]);
        let Some(view) = self.view() else { return };
        match self.mode {
            Mode::Captures => self.fill_captures(view, CAPTURES_A_VIEW - short),
            Mode::Devices => self.fill_devices(view, KNOWN_DEVICES - short),
            Mode::Registrations => self.fill_registrations(view, REGISTRATIONS - short),
            Mode::Panels if self.rng.percent(50) => self.fill_view(view, HITS - short),
            Mode::Panels => self.fill_registry(START_LIMITS[2] as usize - short),
            Mode::Bindings => self.fill_bindings(view, BINDINGS as usize - short),
            _ => {}
        }
    }

    /// A line with the verb, if it may stand and the script has room for it.
    fn put(&mut self, verb: &str, fields: &str) {
        if self.may(verb) && self.calls < self.most {
            let space = if fields.is_empty() { "" } else { " " };
            self.emit(format!("{verb}{space}{fields}").as_bytes());
        }
    }

    fn put_panel(&mut self, view: GenerationalHandle, z_order: i32, policy: u32) {
        let text = self.rng.below(2);
        self.put("attach_surface", &format!("{} 1 {z_order} {policy} {text} {WHOLE}", h(view)));
    }

    fn put_event(&mut self, view: GenerationalHandle, device: InputDeviceId, payload: &str) {
        if let Some(line) = self.event_line(view, device, payload) {
            self.put("route", line.strip_prefix("route ").unwrap_or_default());
        }
    }

    fn fill_captures(&mut self, view: GenerationalHandle, count: usize) {
        self.put_panel(view, 0, 2);
        let layers = self.session.registry.view_layers(view).unwrap_or_default();
        let Some(panel) = layers.iter().rfind(|layer| takes_input(&layer.descriptor)) else {
            return;
        };
        for contact in 0..count as u32 {
            let pointer = CompositionPointerId { device: 7, device_generation: 1, contact };
            let revision = self.session.registry.revision();
            let fields = format!("{} {} {revision}", k(pointer), h(panel.surface));
            self.put("capture_pointer_for", &fields);
        }
        self.put("view_pointer_captures", &h(view));
    }

    fn fill_devices(&mut self, view: GenerationalHandle, count: usize) {
        for value in 1..=count as u64 {
            self.put_event(view, InputDeviceId { value, generation: 1 }, "4 0");
        }
        self.put("router_state", "");
    }

    fn fill_registrations(&mut self, view: GenerationalHandle, count: usize) {
        let mut left = count;
        while left > 0 && self.calls < self.most {
            self.put_panel(view, 0, 2);
            let Some(panel) = access::surfaces(&self.session.registry).pop() else { return };
            let revision = self.session.registry.revision();
            let some = left.min(64);
            let list = (0..some).map(|place| format!(" {} {} 0", 1 + place, place % 3));
            let fields = format!("{} {revision} {some}{}", h(panel), list.collect::<String>());
            self.put("register_surface_system_shortcut_set", &fields);
            left -= some;
        }
        self.put("state", "");
    }

    /// One view with as many panels as there can be, nearly all of which observe.
    fn fill_view(&mut self, view: GenerationalHandle, count: usize) {
        let layers = self.session.registry.view_layers(view).unwrap_or_default();
        for layer in layers {
            self.put("close_surface", &h(layer.surface));
        }
        for place in 0..count {
            let z_order = self.z_order();
            self.put_panel(view, z_order, if place == 5 { 1 } else { 0 });
        }
        self.put("hit_test_stack", &format!("{} 0 0 32", h(view)));
        self.put("view_layers", &h(view));
        self.put_event(view, InputDeviceId { value: 7, generation: 1 }, "1 0 0 0 0 0 0");
        self.put("traces", "");
    }

    /// As many windows, views and panels as there can be.
    fn fill_registry(&mut self, panels: usize) {
        while self.session.registry.live_window_count() < START_LIMITS[0] as usize
            && self.calls < self.most
        {
            self.put("create_window", "");
        }
        for (count, window) in access::windows(&self.session.registry).into_iter().enumerate() {
            let wanted = 2 * (count + 1);
            while self.session.registry.live_view_count() < wanted && self.calls < self.most {
                self.put("create_view", &h(window));
            }
        }
        let views = access::views(&self.session.registry);
        for place in 0..panels {
            if self.session.registry.live_surface_count() < panels && !views.is_empty() {
                self.put_panel(views[place % views.len()], 0, 2);
            }
        }
        self.put("state", "");
    }

    /// As many open presses as there can be, of all three kinds, over a few devices and two panels.
    fn fill_bindings(&mut self, view: GenerationalHandle, count: usize) {
        self.put_panel(view, i32::MAX, 3);
        for place in 0..count as u32 {
            let device = InputDeviceId { value: 1 + u64::from(place % 9), generation: 1 };
            let payload = match place {
                0..9 => "6 1 0".to_string(),
                _ if place % 2 == 0 => format!("0 {place} 0 0 0 0 0 0 0 0 0 0 0"),
                _ => format!("2 0 {place} 0"),
            };
            self.put_event(view, device, &payload);
            if place == 60 {
                self.put_panel(view, i32::MAX, 3);
            }
        }
        self.put("router_state", "");
        if self.rng.percent(40) {
            self.put("release_all", "");
        }
    }
}
